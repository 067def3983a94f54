// Lua 5.1, as its manual has it in section 8. An operator's rule stands above those that bind tighter.
//
// A call that ends a statement may go on in the next line, as the manual warns: where '(' follows, the call is taken for what is
// called next. 'return' and 'break' end a block.
%start Chunk
%token 'NAME' 'NUMBER' 'STRING'
%%
Chunk: Block;

Block
    : Statements
    | Statements Last
    | Statements Last ';'
    ;

Statements
    :
    | Statements Statement
    | Statements Statement ';'
    ;

// What can stand before '.', '[' and arguments. Its productions come before those of statements, so that they are taken where a
// call could end a statement and be called as well.
Prefix
    : 'NAME'
    | Prefix '[' Expression ']'
    | Prefix '.' 'NAME'
    | Prefix Arguments
    | Prefix ':' 'NAME' Arguments
    | '(' Expression ')'
    ;

Statement
    : Variables '=' Expressions
    | Call
    | 'do' Block 'end'
    | 'while' Expression 'do' Block 'end'
    | 'repeat' Block 'until' Expression
    | 'if' Expression 'then' Block Otherwise 'end'
    | 'for' 'NAME' '=' Expression ',' Expression 'do' Block 'end'
    | 'for' 'NAME' '=' Expression ',' Expression ',' Expression 'do' Block 'end'
    | 'for' Names 'in' Expressions 'do' Block 'end'
    | 'function' FunctionName Body
    | 'local' 'function' 'NAME' Body
    | 'local' Names
    | 'local' Names '=' Expressions
    ;

Otherwise
    :
    | 'else' Block
    | 'elseif' Expression 'then' Block Otherwise
    ;

Last
    : 'return'
    | 'return' Expressions
    | 'break'
    ;

FunctionName
    : Path
    | Path ':' 'NAME'
    ;

Path
    : 'NAME'
    | Path '.' 'NAME'
    ;

Variables
    : Variable
    | Variables ',' Variable
    ;

Variable
    : 'NAME'
    | Prefix '[' Expression ']'
    | Prefix '.' 'NAME'
    ;

Call
    : Prefix Arguments
    | Prefix ':' 'NAME' Arguments
    ;

Arguments
    : '(' ')'
    | '(' Expressions ')'
    | Table
    | 'STRING'
    ;

Names
    : 'NAME'
    | Names ',' 'NAME'
    ;

Expressions
    : Expression
    | Expressions ',' Expression
    ;

Expression: Disjunction;

Disjunction
    : Conjunction
    | Disjunction 'or' Conjunction
    ;

Conjunction
    : Comparison
    | Conjunction 'and' Comparison
    ;

Comparison
    : Concatenation
    | Comparison Relation Concatenation
    ;

Relation: '<' | '>' | '<=' | '>=' | '~=' | '==';

Concatenation
    : Sum
    | Sum '..' Concatenation
    ;

Sum
    : Product
    | Sum '+' Product
    | Sum '-' Product
    ;

Product
    : Unary
    | Product '*' Unary
    | Product '/' Unary
    | Product '%' Unary
    ;

Unary
    : Power
    | 'not' Unary
    | '#' Unary
    | '-' Unary
    ;

Power
    : Simple
    | Simple '^' Unary
    ;

Simple
    : 'nil'
    | 'false'
    | 'true'
    | 'NUMBER'
    | 'STRING'
    | '...'
    | 'function' Body
    | Prefix
    | Table
    ;

Body: '(' Parameters ')' Block 'end';

Parameters
    :
    | Names
    | Names ',' '...'
    | '...'
    ;

Table
    : '{' '}'
    | '{' Fields '}'
    | '{' Fields Separator '}'
    ;

Fields
    : Field
    | Fields Separator Field
    ;

Field
    : '[' Expression ']' '=' Expression
    | 'NAME' '=' Expression
    | Expression
    ;

Separator: ',' | ';';
