// JSON, as RFC 8259 has it. Each list keeps to the left, so that the stack of a parse grows with the nesting alone.
%start Text
%%
Text: Value;

Value
    : 'null'
    | 'true'
    | 'false'
    | 'NUMBER'
    | 'STRING'
    | Object
    | Array
    ;

Object
    : '{' '}'
    | '{' Members '}'
    ;

Members
    : Member
    | Members ',' Member
    ;

Member: 'STRING' ':' Value;

Array
    : '[' ']'
    | '[' Values ']'
    ;

Values
    : Value
    | Values ',' Value
    ;
