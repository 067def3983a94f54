%grmtools{yacckind: Typed}

%use crate::queries::tree::{Expr, Operator, Query, Stage};

%type <Query<'text>> Statement Query
%type <Stage<'text>> Stage
%type <Expr<'text>> Expr And Comparison Sum Product Atom
%type <Vec<Query<'text>>> File

%%

File: (Statement ';')*;

Statement
    : 'let' 'NAME'[name] '=' Query #named_query
    | 'show' Query
    ;

Query: 'from' 'NAME'[name] Stage*[stages] #query;

Stage
    : 'where' Expr[condition] #filter
    | 'select' Expr % ','[columns] #select
    | 'take' 'INT'[count] #take
    ;

Expr
    : Expr[left] 'or' And[right] #binary(Operator::Or)
    | And
    ;

And
    : And[left] 'and' Comparison[right] #binary(Operator::And)
    | Comparison
    ;

Comparison
    : Sum[left] '=' Sum[right] #binary(Operator::Equal)
    | Sum[left] '<' Sum[right] #binary(Operator::Less)
    | Sum
    ;

Sum
    : Sum[left] '+' Product[right] #binary(Operator::Plus)
    | Sum[left] '-' Product[right] #binary(Operator::Minus)
    | Product
    ;

Product
    : Product[left] '*' Atom[right] #binary(Operator::Times)
    | Product[left] '/' Atom[right] #binary(Operator::Over)
    | Atom
    ;

Atom
    : 'NAME'[name] #column
    | 'NAME'[name] '(' Expr % ','[arguments] ')' #call
    | 'INT'[digits] #number
    | 'TEXT'[text] #text
    | 'null' #null
    | '(' Expr ')'
    ;
