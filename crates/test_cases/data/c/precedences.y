// C as of 1989, as the grammar beside this one has it, with a level of precedence in place of each rule of the operators, and with actions.
//
// An 'else' goes with the nearest 'if' that has none: THEN is below 'else'. An assignment may have any expression on its left here, and a
// constant may be an assignment.
%start Unit
%actiontype Tree
%token 'NAME' 'INTEGER' 'FLOATING' 'CHARACTER' 'STRING'
%nonassoc THEN
%nonassoc 'else'
%left ','
%right '=' '*=' '/=' '%=' '+=' '-='
       '<<=' '>>=' '&=' '^=' '|='
%right '?' ':'
%left '||'
%left '&&'
%left '|'
%left '^'
%left '&'
%left '==' '!='
%left '<' '>' '<=' '>='
%left '<<' '>>'
%left '+' '-'
%left '*' '/' '%'
%right UNARY
%left '(' '[' '.' '->' '++' '--'
%%
Unit
    : External
    | Unit External
    ;

External
    : Function
    | Declaration
    ;

Function
    : Declarator Block
    | Specifiers Declarator Block
    | Declarator Declarations Block
    | Specifiers Declarator Declarations Block
    ;

Declarations
    : Declaration
    | Declarations Declaration
    ;

Declaration
    : Specifiers ';'
    | Specifiers Introduced ';'
    ;

Specifiers
    : Specifier
    | Specifiers Specifier
    ;

Specifier: Storage | Type | Qualifier;

Storage: 'auto' | 'register' | 'static' | 'extern';

Qualifier: 'const' | 'volatile';

Type
    : 'void' | 'char' | 'short' | 'int' | 'long' | 'float' | 'double' | 'signed' | 'unsigned'
    | Aggregate
    | Enumeration
    ;

Aggregate
    : Kind 'NAME'
    | Kind '{' Members '}'
    | Kind 'NAME' '{' Members '}'
    ;

Kind: 'struct' { Kind::Struct } | 'union' { Kind::Union };

Members
    : Member
    | Members Member
    ;

Member: MemberTypes Fields ';';

MemberTypes
    : MemberType
    | MemberTypes MemberType
    ;

MemberType: Type | Qualifier;

Fields
    : Field
    | Fields ',' Field
    ;

Field
    : Declarator
    | ':' Constant
    | Declarator ':' Constant
    ;

Enumeration
    : 'enum' 'NAME'
    | 'enum' '{' Enumerators '}'
    | 'enum' 'NAME' '{' Enumerators '}'
    ;

Enumerators
    : Enumerator
    | Enumerators ',' Enumerator
    ;

Enumerator
    : 'NAME'
    | 'NAME' '=' Constant
    ;

Introduced
    : Initialized
    | Introduced ',' Initialized
    ;

Initialized
    : Declarator
    | Declarator '=' Initializer
    ;

Initializer
    : Assignment
    | '{' Initializers '}'
    | '{' Initializers ',' '}'
    ;

Initializers
    : Initializer
    | Initializers ',' Initializer
    ;

Declarator
    : Direct
    | Pointer Direct
    ;

Direct
    : 'NAME'
    | '(' Declarator ')'
    | Direct '[' ']'
    | Direct '[' Constant ']'
    | Direct '(' ')'
    | Direct '(' Names ')'
    | Direct '(' Parameters ')'
    ;

Pointer
    : '*'
    | '*' Qualifiers
    | '*' Pointer
    | '*' Qualifiers Pointer
    ;

Qualifiers
    : Qualifier
    | Qualifiers Qualifier
    ;

Names
    : 'NAME'
    | Names ',' 'NAME'
    ;

Parameters
    : ParameterList
    | ParameterList ',' '...'
    ;

ParameterList
    : Parameter
    | ParameterList ',' Parameter
    ;

Parameter
    : Specifiers
    | Specifiers Declarator
    | Specifiers Abstract
    ;

TypeName
    : MemberTypes
    | MemberTypes Abstract
    ;

Abstract
    : Pointer
    | Nameless
    | Pointer Nameless
    ;

Nameless
    : '(' Abstract ')'
    | '[' ']'
    | '[' Constant ']'
    | Nameless '[' ']'
    | Nameless '[' Constant ']'
    | '(' ')'
    | '(' Parameters ')'
    | Nameless '(' ')'
    | Nameless '(' Parameters ')'
    ;

Block
    : '{' '}'
    | '{' Declarations '}'
    | '{' Statements '}'
    | '{' Declarations Statements '}'
    ;

Statements
    : Statement
    | Statements Statement
    ;

Statement
    : Labelled
    | Block
    | ';'
    | Expression ';'
    | 'if' '(' Expression ')' Statement %prec THEN { Statement::If($3, Box::new($5), None) }
    | 'if' '(' Expression ')' Statement 'else' Statement { Statement::If($3, Box::new($5), Some(Box::new($7))) }
    | 'switch' '(' Expression ')' Statement
    | 'while' '(' Expression ')' Statement { 'outer: loop { break 'outer Statement::While($3, Box::new($5)); } }
    | 'do' Statement 'while' '(' Expression ')' ';'
    | 'for' '(' Optional ';' Optional ';' Optional ')' Statement
    | 'goto' 'NAME' ';' { Statement::Goto { label: name($lexer, $2), sign: ';' } }
    | 'continue' ';'
    | 'break' ';'
    | 'return' Optional ';'
    ;

Labelled
    : 'NAME' ':' Statement
    | 'case' Constant ':' Statement
    | 'default' ':' Statement
    ;

Optional
    : %empty { None }
    | Expression { Some($1) }
    ;

Expression
    : Assignment
    | Expression ',' Assignment
    ;

Constant: Assignment;

// What stands between the commas of arguments and of initializers.
Assignment
    : Primary
    | Assignment '=' Assignment { assigned("=", $1, $3) }
    | Assignment '*=' Assignment { assigned("*=", $1, $3) }
    | Assignment '/=' Assignment { assigned("/=", $1, $3) }
    | Assignment '%=' Assignment { assigned("%=", $1, $3) }
    | Assignment '+=' Assignment { assigned("+=", $1, $3) }
    | Assignment '-=' Assignment { assigned("-=", $1, $3) }
    | Assignment '<<=' Assignment { assigned("<<=", $1, $3) }
    | Assignment '>>=' Assignment { assigned(">>=", $1, $3) }
    | Assignment '&=' Assignment { assigned("&=", $1, $3) }
    | Assignment '^=' Assignment { assigned("^=", $1, $3) }
    | Assignment '|=' Assignment { assigned("|=", $1, $3) }
    | Assignment '?' Expression ':' Assignment { if let (Some(a), Some(b)) = ($3, $5) { Tree::Choice($1, a, b) } else { Tree::Wrong('}') } }
    | Assignment '||' Assignment { operated("||", $1, $3) }
    | Assignment '&&' Assignment { operated("&&", $1, $3) }
    | Assignment '|' Assignment { operated("|", $1, $3) }
    | Assignment '^' Assignment { operated("^", $1, $3) }
    | Assignment '&' Assignment { operated("&", $1, $3) }
    | Assignment '==' Assignment { operated("==", $1, $3) }
    | Assignment '!=' Assignment { operated("!=", $1, $3) }
    | Assignment '<' Assignment { operated("<", $1, $3) }
    | Assignment '>' Assignment { operated(">", $1, $3) }
    | Assignment '<=' Assignment { operated("<=", $1, $3) }
    | Assignment '>=' Assignment { operated(">=", $1, $3) }
    | Assignment '<<' Assignment { operated("<<", $1, $3) }
    | Assignment '>>' Assignment { operated(">>", $1, $3) }
    | Assignment '+' Assignment { operated("+", $1, $3) }
    | Assignment '-' Assignment { operated("-", $1, $3) }
    | Assignment '*' Assignment { operated("*", $1, $3) }
    | Assignment '/' Assignment { operated("/", $1, $3) }
    | Assignment '%' Assignment { operated("%", $1, $3) }
    | '++' Assignment %prec UNARY { Tree::Unary(Sign::of(r"++"), Box::new($2)) }
    | '--' Assignment %prec UNARY { Tree::Unary(Sign::of(r"--"), Box::new($2)) }
    | '&' Assignment %prec UNARY { Tree::Unary(Sign::of(r"&"), Box::new($2)) }
    | '*' Assignment %prec UNARY { Tree::Unary(Sign::of(r"*"), Box::new($2)) }
    | '+' Assignment %prec UNARY { Tree::Unary(Sign::of(r"+"), Box::new($2)) }
    | '-' Assignment %prec UNARY { Tree::Unary(Sign::of(r"-"), Box::new($2)) }
    | '~' Assignment %prec UNARY { Tree::Unary(Sign::of(r"~"), Box::new($2)) }
    | '!' Assignment %prec UNARY { Tree::Unary(Sign::of(r"!"), Box::new($2)) }
    | 'sizeof' Assignment %prec UNARY { Tree::Unary(Sign::of(r"sizeof"), Box::new($2)) }
    | 'sizeof' '(' TypeName ')' %prec UNARY { Tree::Size($3) }
    | '(' TypeName ')' Assignment %prec UNARY { Tree::Cast($2, Box::new($4)) }
    | Assignment '[' Expression ']' { Tree::Indexed { of: Box::new($1), at: Box::new($3) } }
    | Assignment '(' ')' { Tree::Called { what: Box::new($1), by: vec![] } }
    | Assignment '(' Arguments ')' { Tree::Called { what: Box::new($1), by: $3 } }
    | Assignment '.' 'NAME' { /* '{' */ Tree::Member($1, name($lexer, $3)) }
    | Assignment '->' 'NAME' { // "{"
          Tree::Member(Tree::Unary(Sign::of("*"), Box::new($1)), name($lexer, $3))
      }
    | Assignment '++' { Tree::Postfix("++", Box::new($1)) }
    | Assignment '--' { Tree::Postfix("--", Box::new($1)) }
    ;

Arguments
    : Assignment { vec![$1] }
    | Arguments ',' Assignment { $1.push($3); $1 }
    ;

Primary
    : 'NAME'
    | 'INTEGER'
    | 'FLOATING'
    | 'CHARACTER'
    | Strings
    | '(' Expression ')'
    ;

Strings
    : 'STRING'
    | Strings 'STRING'
    ;
%%
/// The name of a lexeme.
fn name<'input>(lexer: &'input dyn NonStreamingLexer<'input, Types>, lexeme: Result<Lexeme, Lexeme>) -> &'input str {
    match lexeme {
        Ok(lexeme) | Err(lexeme) => lexer.span_str(lexeme.span()),
    }
}
