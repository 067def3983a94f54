%token INT
%%
Expr: Expr '+' Term | Term;
Term: '(' Expr ')' | INT;
