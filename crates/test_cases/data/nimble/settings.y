%% File: | File Setting;
Setting: 'NAME' '=' Number ';';
Number: 'DIGITS' | Number '+' 'DIGITS';
