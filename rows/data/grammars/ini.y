// Configuration files with sections, written on another system:
// every line of this grammar ends in CR LF.

%token KEY VALUE COMMENT   // a key; the text behind '='; a line from ';' or '#'
%token EOL BLANK
%token TITLE               // what stands between '[' and ']'

%%

// A file has entries before its first section, then the sections.
File
	: Entries Sections
	| Entries Sections COMMENT	// a last line without an end
	;

Sections
	:
	| Sections Section
	;

Section
	: Header EOL Entries
	| Header Remark Entries
	;

Header
	: '[' Title ']'
	| '[' ']'
	| '[' '[' Title ']' ']'		/* one of an array of sections */
	;

Title
	: TITLE
	| Title '.' TITLE
	| Title '/' TITLE
	;

Entries
	:
	| Entries Entry
	;

Entry
	: EOL
	| BLANK EOL
	| Remark
	| KEY Sign Setting Finish
	| KEY Finish			/* a key alone is "on" */
	| '!' KEY Finish		/* and this is "off" */
	| "include" Setting Finish
	;

Finish: EOL | Remark;
Remark: COMMENT EOL;
Sign: '=' | ':' | "+=" | '?=';

Setting
	: VALUE
	| VALUE Continued
	| List
	;

Continued
	: '\' EOL VALUE
	| Continued '\' EOL VALUE
	;

List
	: '(' ')'
	| '(' Items ')'
	| '(' Items ',' ')'
	;

Items
	: VALUE
	| List
	| Items ',' VALUE
	| Items ',' List
	;
