%grmtools{yacckind: Typed}

%use crate::values::Setting;

%type <Vec<Setting<'text>>> File
%type <Setting<'text>> Setting
%type <u64> Number

%%

File: Setting*;

Setting: 'NAME'[name] '=' Number[value] ';' #setting;

Number
    : 'DIGITS'[digits] #number
    | Number[left] '+' 'DIGITS'[digits] #sum
    ;
