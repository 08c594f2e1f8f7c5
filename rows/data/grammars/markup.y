/* markup.y -- documents of tags and text, in two parts: a prolog and one
 * element. That tags match is looked at later, on the tree. */

%start document

%token TEXT                                      /* anything outside of tags */
%token NAME  STRING                              /* inside of tags           */
%token ENTITY                                    /* the name between & and ; */
%token CODEPOINT                                 /* &#38; or &#x26;          */
%token COMMENT CDATA                             /* whole, with their signs  */
%token SPACE

%%

document:       prolog element trailer;

prolog:         xml_decl misc doctype;

xml_decl:       | '<?xml' attributes space '?>';

doctype:        | '<!DOCTYPE' SPACE NAME external space subset '>' misc;

external:       | SPACE 'SYSTEM' SPACE STRING
                | SPACE 'PUBLIC' SPACE STRING SPACE STRING;

subset:         | '[' declarations ']' space;

declarations:   | declarations declaration | declarations SPACE | declarations COMMENT;

declaration:    '<!ELEMENT' SPACE NAME SPACE model space '>'
                | '<!ATTLIST' SPACE NAME attribute_defs space '>'
                | '<!ENTITY' SPACE NAME SPACE STRING space '>';

model:          'EMPTY' | 'ANY' | '(' space particle space ')' repeat;
particle:       name_or_group | sequence | choice;
sequence:       name_or_group space ',' space name_or_group
                | sequence space ',' space name_or_group;
choice:         name_or_group space '|' space name_or_group
                | choice space '|' space name_or_group;
name_or_group:  NAME repeat | '#PCDATA' | '(' space particle space ')' repeat;
repeat:         | '?' | '*' | '+';

attribute_defs: | attribute_defs SPACE NAME SPACE attribute_type SPACE default;
attribute_type: 'CDATA' | 'ID' | 'IDREF' | 'NMTOKEN' | '(' names ')';
names:          NAME | names '|' NAME;
default:        '#REQUIRED' | '#IMPLIED' | STRING | '#FIXED' SPACE STRING;

misc:           | misc COMMENT | misc SPACE | misc instruction;
instruction:    '<?' NAME '?>' | '<?' NAME SPACE TEXT '?>';
trailer:        misc;

/* ------------------------------------------------------------- elements */

element:        '<' qname attributes space '/>'
                | '<' qname attributes space '>' content '</' qname space '>';

qname:          NAME | NAME ':' NAME;

attributes:     | attributes SPACE attribute;
attribute:      qname equals STRING;
equals:         space '=' space;

content:        | content piece;
piece:          element | TEXT | SPACE | COMMENT | CDATA | instruction | reference;
reference:      '&' ENTITY ';' | CODEPOINT;

space:          | SPACE;
