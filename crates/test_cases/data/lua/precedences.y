// Lua 5.1, as the grammar beside this one has it, with a level of precedence in place of each rule of the operators, and with actions.
//
// A call that ends a statement may go on in the next line there, and does so here: no precedence decides that.
%start Chunk
%actiontype Node
%token 'NAME' 'NUMBER' 'STRING'
%left 'or'
%left 'and'
%left '<' '>' '<=' '>=' '~=' '=='
%right '..'
%left '+' '-'
%left '*' '/' '%'
%right UNARY
%right '^'
%%
Chunk: Block;

Block
    : Statements
    | Statements Last
    | Statements Last ';'
    ;

Statements
    :
    | Statements Statement
    | Statements Statement ';'
    ;

// What can stand before '.', '[' and arguments. Its productions come before those of statements, so that they are taken where a
// call could end a statement and be called as well.
Prefix
    : 'NAME'
    | Prefix '[' Expression ']'
    | Prefix '.' 'NAME'
    | Prefix Arguments
    | Prefix ':' 'NAME' Arguments
    | '(' Expression ')'
    ;

Statement
    : Variables '=' Expressions
    | Call
    | 'do' Block 'end'
    | 'while' Expression 'do' Block 'end'
    | 'repeat' Block 'until' Expression
    | 'if' Expression 'then' Block Otherwise 'end' { Statement::If($2, $4, $5) }
    | 'for' 'NAME' '=' Expression ',' Expression 'do' Block 'end'
    | 'for' 'NAME' '=' Expression ',' Expression ',' Expression 'do' Block 'end'
    | 'for' Names 'in' Expressions 'do' Block 'end'
    | 'function' FunctionName Body
    | 'local' 'function' 'NAME' Body
    | 'local' Names
    | 'local' Names '=' Expressions
    ;

Otherwise
    : %empty { None }
    | 'else' Block { Some(Box::new($2)) }
    | 'elseif' Expression 'then' Block Otherwise
    ;

Last
    : 'return'
    | 'return' Expressions
    | 'break'
    ;

FunctionName
    : Path
    | Path ':' 'NAME'
    ;

Path
    : 'NAME'
    | Path '.' 'NAME'
    ;

Variables
    : Variable
    | Variables ',' Variable
    ;

Variable
    : 'NAME'
    | Prefix '[' Expression ']'
    | Prefix '.' 'NAME'
    ;

Call
    : Prefix Arguments
    | Prefix ':' 'NAME' Arguments
    ;

Arguments
    : '(' ')'
    | '(' Expressions ')'
    | Table
    | 'STRING'
    ;

Names
    : 'NAME'
    | Names ',' 'NAME'
    ;

Expressions
    : Expression
    | Expressions ',' Expression
    ;

Expression
    : 'nil'
    | 'false' { Value::Boolean(false) }
    | 'true' { Value::Boolean(true) }
    | 'NUMBER' { number($lexer.span_str($span)).map_err(|e| { log::warn!("{e}: '{}'", '\'') }) }
    | 'STRING'
    | '...'
    | 'function' Body
    | Prefix
    | Table
    | Expression 'or' Expression { Value::Binary { sign: "or", of: [$1, $3] } }
    | Expression 'and' Expression { Value::Binary { sign: "and", of: [$1, $3] } }
    | Expression '<' Expression { Value::Binary { sign: "<", of: [$1, $3] } }
    | Expression '>' Expression { Value::Binary { sign: ">", of: [$1, $3] } }
    | Expression '<=' Expression { Value::Binary { sign: "<=", of: [$1, $3] } }
    | Expression '>=' Expression { Value::Binary { sign: ">=", of: [$1, $3] } }
    | Expression '~=' Expression { Value::Binary { sign: "~=", of: [$1, $3] } }
    | Expression '==' Expression { Value::Binary { sign: "==", of: [$1, $3] } }
    | Expression '..' Expression { Value::Binary { sign: "..", of: [$1, $3] } }
    | Expression '+' Expression { Value::Binary { sign: "+", of: [$1, $3] } }
    | Expression '-' Expression { Value::Binary { sign: "-", of: [$1, $3] } }
    | Expression '*' Expression { Value::Binary { sign: "*", of: [$1, $3] } }
    | Expression '/' Expression { Value::Binary { sign: "/", of: [$1, $3] } }
    | Expression '%' Expression { Value::Binary { sign: "%", of: [$1, $3] } }
    | 'not' Expression %prec UNARY { Value::Unary("not", Box::new($2)) }
    | '#' Expression %prec UNARY { Value::Unary("#", Box::new($2)) }
    | '-' Expression %prec UNARY { Value::Unary("-", Box::new($2)) }
    | Expression '^' Expression { Value::Binary { sign: "^", of: [$1, $3] } }
    ;

Body: '(' Parameters ')' Block 'end';

Parameters
    :
    | Names
    | Names ',' '...'
    | '...'
    ;

Table
    : '{' '}'
    | '{' Fields '}'
    | '{' Fields Separator '}'
    ;

Fields
    : Field
    | Fields Separator Field
    ;

Field
    : '[' Expression ']' '=' Expression
    | 'NAME' '=' Expression
    | Expression
    ;

Separator: ',' | ';';
