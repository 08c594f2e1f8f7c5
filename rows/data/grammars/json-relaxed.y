/* JSON with comments, names without quotes, and commas at the end. */   %start text

%token  string  number  name   // "s" or 's'; 1, +1, .5, 0x1F, Infinity; abc
%token  comment                // kept, for the printer writes it again

%%

text     : notes value notes ;

value    : object
         | array
         | scalar
         ;

scalar   : string
         | number
         | 'true'
         | 'false'
         | 'null'
         | '"""' lines '"""'            // a text over lines
         ;
lines    :
         | lines string
         ;

object   : '{' notes '}'
         | '{' notes members comma '}'
         ;
members  : member
         | members ',' notes member
         ;
member   : key notes ':' notes value notes
         | '...' name notes             // takes another object's members
         ;
key      : string
         | name
         | number
         | '[' value ']'
         ;

array    : '[' notes ']'
         | '[' notes elements comma ']'
         ;
elements : value notes
         | elements ',' notes value notes
         ;

comma    :
         | ',' notes
         ;
notes    :
         | notes comment
         ;
