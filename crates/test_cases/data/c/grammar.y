// C as of 1989, without the preprocessor and without names of types that a program defines itself: there is no 'typedef'.
//
// An 'else' goes with the nearest 'if' that has none: at 'else' the table shifts.
%start Unit
%token 'NAME' 'INTEGER' 'FLOATING' 'CHARACTER' 'STRING'
%%
Unit
    : External
    | Unit External
    ;

External
    : Function
    | Declaration
    ;

Function
    : Declarator Block
    | Specifiers Declarator Block
    | Declarator Declarations Block
    | Specifiers Declarator Declarations Block
    ;

Declarations
    : Declaration
    | Declarations Declaration
    ;

Declaration
    : Specifiers ';'
    | Specifiers Introduced ';'
    ;

Specifiers
    : Specifier
    | Specifiers Specifier
    ;

Specifier: Storage | Type | Qualifier;

Storage: 'auto' | 'register' | 'static' | 'extern';

Qualifier: 'const' | 'volatile';

Type
    : 'void' | 'char' | 'short' | 'int' | 'long' | 'float' | 'double' | 'signed' | 'unsigned'
    | Aggregate
    | Enumeration
    ;

Aggregate
    : Kind 'NAME'
    | Kind '{' Members '}'
    | Kind 'NAME' '{' Members '}'
    ;

Kind: 'struct' | 'union';

Members
    : Member
    | Members Member
    ;

Member: MemberTypes Fields ';';

MemberTypes
    : MemberType
    | MemberTypes MemberType
    ;

MemberType: Type | Qualifier;

Fields
    : Field
    | Fields ',' Field
    ;

Field
    : Declarator
    | ':' Constant
    | Declarator ':' Constant
    ;

Enumeration
    : 'enum' 'NAME'
    | 'enum' '{' Enumerators '}'
    | 'enum' 'NAME' '{' Enumerators '}'
    ;

Enumerators
    : Enumerator
    | Enumerators ',' Enumerator
    ;

Enumerator
    : 'NAME'
    | 'NAME' '=' Constant
    ;

Introduced
    : Initialized
    | Introduced ',' Initialized
    ;

Initialized
    : Declarator
    | Declarator '=' Initializer
    ;

Initializer
    : Assignment
    | '{' Initializers '}'
    | '{' Initializers ',' '}'
    ;

Initializers
    : Initializer
    | Initializers ',' Initializer
    ;

Declarator
    : Direct
    | Pointer Direct
    ;

Direct
    : 'NAME'
    | '(' Declarator ')'
    | Direct '[' ']'
    | Direct '[' Constant ']'
    | Direct '(' ')'
    | Direct '(' Names ')'
    | Direct '(' Parameters ')'
    ;

Pointer
    : '*'
    | '*' Qualifiers
    | '*' Pointer
    | '*' Qualifiers Pointer
    ;

Qualifiers
    : Qualifier
    | Qualifiers Qualifier
    ;

Names
    : 'NAME'
    | Names ',' 'NAME'
    ;

Parameters
    : ParameterList
    | ParameterList ',' '...'
    ;

ParameterList
    : Parameter
    | ParameterList ',' Parameter
    ;

Parameter
    : Specifiers
    | Specifiers Declarator
    | Specifiers Abstract
    ;

TypeName
    : MemberTypes
    | MemberTypes Abstract
    ;

Abstract
    : Pointer
    | Nameless
    | Pointer Nameless
    ;

Nameless
    : '(' Abstract ')'
    | '[' ']'
    | '[' Constant ']'
    | Nameless '[' ']'
    | Nameless '[' Constant ']'
    | '(' ')'
    | '(' Parameters ')'
    | Nameless '(' ')'
    | Nameless '(' Parameters ')'
    ;

Block
    : '{' '}'
    | '{' Declarations '}'
    | '{' Statements '}'
    | '{' Declarations Statements '}'
    ;

Statements
    : Statement
    | Statements Statement
    ;

Statement
    : Labelled
    | Block
    | ';'
    | Expression ';'
    | 'if' '(' Expression ')' Statement
    | 'if' '(' Expression ')' Statement 'else' Statement
    | 'switch' '(' Expression ')' Statement
    | 'while' '(' Expression ')' Statement
    | 'do' Statement 'while' '(' Expression ')' ';'
    | 'for' '(' Optional ';' Optional ';' Optional ')' Statement
    | 'goto' 'NAME' ';'
    | 'continue' ';'
    | 'break' ';'
    | 'return' Optional ';'
    ;

Labelled
    : 'NAME' ':' Statement
    | 'case' Constant ':' Statement
    | 'default' ':' Statement
    ;

Optional
    :
    | Expression
    ;

Expression
    : Assignment
    | Expression ',' Assignment
    ;

Assignment
    : Conditional
    | Unary Assigns Assignment
    ;

Assigns: '=' | '*=' | '/=' | '%=' | '+=' | '-=' | '<<=' | '>>=' | '&=' | '^=' | '|=';

Constant: Conditional;

Conditional
    : Or
    | Or '?' Expression ':' Conditional
    ;

Or
    : And
    | Or '||' And
    ;

And
    : BitOr
    | And '&&' BitOr
    ;

BitOr
    : BitXor
    | BitOr '|' BitXor
    ;

BitXor
    : BitAnd
    | BitXor '^' BitAnd
    ;

BitAnd
    : Equality
    | BitAnd '&' Equality
    ;

Equality
    : Order
    | Equality '==' Order
    | Equality '!=' Order
    ;

Order
    : Shift
    | Order '<' Shift
    | Order '>' Shift
    | Order '<=' Shift
    | Order '>=' Shift
    ;

Shift
    : Sum
    | Shift '<<' Sum
    | Shift '>>' Sum
    ;

Sum
    : Product
    | Sum '+' Product
    | Sum '-' Product
    ;

Product
    : Cast
    | Product '*' Cast
    | Product '/' Cast
    | Product '%' Cast
    ;

Cast
    : Unary
    | '(' TypeName ')' Cast
    ;

Unary
    : Postfix
    | '++' Unary
    | '--' Unary
    | Sign Cast
    | 'sizeof' Unary
    | 'sizeof' '(' TypeName ')'
    ;

Sign: '&' | '*' | '+' | '-' | '~' | '!';

Postfix
    : Primary
    | Postfix '[' Expression ']'
    | Postfix '(' ')'
    | Postfix '(' Arguments ')'
    | Postfix '.' 'NAME'
    | Postfix '->' 'NAME'
    | Postfix '++'
    | Postfix '--'
    ;

Arguments
    : Assignment
    | Arguments ',' Assignment
    ;

Primary
    : 'NAME'
    | 'INTEGER'
    | 'FLOATING'
    | 'CHARACTER'
    | Strings
    | '(' Expression ')'
    ;

Strings
    : 'STRING'
    | Strings 'STRING'
    ;
