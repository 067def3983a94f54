%grmtools{yacckind: Typed}

%type <Vec<u8>> Percents
%type <u8> Percent

%%

Percents: Percent % ',';

Percent: 'DIGITS'[digits] #percent;
