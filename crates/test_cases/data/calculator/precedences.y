// The same calculator without a rule for each level, and with more signs.
%start Expr
%actiontype Result<i64, Wrong>
%parse-param most: i64
%nonassoc '<' '=' '>'
%left '+' '-'
%left '*' '/'
%left MINUS // no token: only a level
%right '^'
%expect 0
%expect-rr 0
%%
Expr: Expr '<' Expr { Ok(i64::from($1? < $3?)) }
    | Expr '=' Expr { Ok(i64::from($1? == $3?)) }
    | Expr '>' Expr { Ok(i64::from($1? > $3?)) }
    | Expr '+' Expr { within(most, $1? + $3?) }
    | Expr '-' Expr { within(most, $1? - $3?) }
    | Expr '*' Expr { within(most, $1? * $3?) }
    | Expr '/' Expr {
          match $3? {
              0 => Err(Wrong::Text("a '}' in a string, and a \" as well")),
              by => Ok($1? / by), /* a comment with } and /* one inside } */ */
          }
      }
    | Expr '^' Expr { power::<'static>($1?, $3?) }
    | '-' Expr %prec MINUS { Ok(-$2?) }
    | '(' Expr ')' { $2 }
    | 'NUMBER' { $lexer.span_str($span).parse().map_err(|_| Wrong::Sign('}')) }
    ;
%%
fn within(most: i64, value: i64) -> Result<i64, Wrong> {
    if value <= most { Ok(value) } else { Err(Wrong::Text(r#"more than "most""#)) }
}
