%grmtools{yacckind: Typed}
// The notation of typed grammars, written in itself.
%use crate::file::{Alternative, Declaration, File, Item, Label, Mention, Part, Repeat, Rule};
%use lrpar_grammar::span::Span;
%type <File> File
%type <Declaration> Declaration
%type <Rule> Rule
%type <Alternative> Alternative
%type <Label> Label
%type <Part> Part
%type <Item> Item
%type <Repeat> Repeat
%type <Mention> Symbol
%type <Span> Name
%%
File: 'HEADER'?[_] Declaration*[declarations] '%%' Rule*[rules] #file;
Declaration
    : 'USE'[path] #declare_use
    | '%start' Name #declare_start
    | '%token' Symbol+[symbols] #declare_tokens
    | '%type' 'TYPE'[value] Name+[rules] #declare_type;
Rule: Name ':' Alternative % '|'[alternatives] ';' #rule;
Alternative: Part*[parts] Label?[label] #alternative;
Label: '#' Name #label | '#' Name '(' 'PATH'[constant] ')' #label_of_kind;
Part: Item #part | Item '[' Name ']' #named_part;
Item: Symbol #symbol_item | '(' Alternative % '|'[alternatives] ')' #group | Item Repeat #repeated;
Repeat
    : '*' #zero_or_more
    | '+' #one_or_more
    | '?' #optional
    | '%' Symbol[separator] #separated
    | '%?' Symbol[separator] #terminated;
Symbol: Name #name | 'QUOTED'[text] #quoted;
Name: 'NAME'[word] #word;
