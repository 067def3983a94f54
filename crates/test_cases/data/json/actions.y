// JSON, as RFC 8259 has it, with actions. Each list keeps to the left, so that the stack of a parse grows with the nesting alone.
%grmtools{ yacckind: Grmtools, recoverer: RecoveryKind::CPCTPlus }
%start Text
%avoid_insert 'NUMBER' 'STRING'
%parse-param arena: &'arena Arena<Value<'arena>>
%expect 0
%%
Text -> Result<Value<'input>, Fault>: Value { $1 };

Value -> Result<Value<'input>, Fault>
    : 'null' { Ok(Value::Null) }
    | 'true' { Ok(Value::Bool(true)) }
    | 'false' { Ok(Value::Bool(false)) }
    | 'NUMBER' { number($lexer.span_str($span)) }
    | 'STRING' { Ok(Value::String(text_of($lexer.span_str($span))?)) }
    | Object { $1.map(|members| Value::Object { members }) }
    | Array { $1.map(|values: Vec<Value<'input>>| Value::Array { values }) }
    ;

Object -> Result<Map<&'input str, Value<'input>>, Fault>
    : '{' '}' { Ok(Map::new()) }
    | '{' Members '}' { $2 }
    ;

Members -> Result<Map<&'input str, Value<'input>>, Fault>
    : Member {
          let (name, value) = $1?;
          Ok(Map::from([(name, value)]))
      }
    | Members ',' Member {
          let mut members = $1?;
          let (name, value) = $3?;
          if members.insert(name, value).is_some() {
              return Err(Fault::Twice { name, sign: '{' });
          }
          Ok(members)
      }
    ;

Member -> Result<(&'input str, Value<'input>), Fault>: 'STRING' ':' Value { Ok((text_of($1)?, $3?)) };

Array -> Result<Vec<Value<'input>>, Fault>
    : '[' ']' { Ok(vec![]) }
    | '[' Values ']' { $2 }
    ;

Values -> Result<Vec<Value<'input>>, Fault>
    : Value { Ok(vec![$1?]) }
    | Values ',' Value { let mut values = $1?; values.push($3?); Ok(values) }
    ;
%%
// A `\u{7d}` is a `}`.
fn text_of(quoted: &str) -> Result<&str, Fault> {
    quoted.strip_prefix('"').and_then(|s| s.strip_suffix('"')).ok_or(Fault::Open("}\u{7d}"))
}
