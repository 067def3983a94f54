// Sums and products of whole numbers: the calculator of lrpar's README, as its own kind of file has it.
%start Sum
%avoid_insert "NUMBER"
%expect-unused Unmatched "UNMATCHED"
%%
Sum -> Result<u64, Wrong>:
      Sum '+' Product { $1?.checked_add($3?).ok_or(Wrong::Large) }
    | Product { $1 }
    ;

Product -> Result<u64, Wrong>:
      Product '*' Operand {
          let (a, b) = ($1?, $3?);
          if let Some(c) = a.checked_mul(b) { Ok(c) } else { Err(Wrong::Large) } // no { is left open
      }
    | Operand { $1 }
    ;

Operand -> Result<u64, Wrong>:
      '(' Sum ')' { $2 }
    | "NUMBER" {
          let lexeme = $1.map_err(|_| Wrong::Missing)?;
          number_of($lexer.span_str(lexeme.span()))
      }
    ;

// A character that no other rule of the lexer takes.
Unmatched -> ():
      "UNMATCHED" { }
    ;
%%
// What the actions call.

#[derive(Debug)]
enum Wrong { Missing, Large }

fn number_of(text: &str) -> Result<u64, Wrong> {
    text.parse::<u64>().map_err(|_| {
        eprintln!("{{{text}}} is too large: \"}}\" closes nothing");
        Wrong::Large
    })
}
