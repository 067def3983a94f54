%start L
%%
L: 'x' L | 'x';
