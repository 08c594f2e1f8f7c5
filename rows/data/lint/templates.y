// Templates of letters: text with holes, and parts that are repeated for each item of a list.

%token TEXT NAME

%%

Template: Parts ;

// The empty row is missing, so no row of parts ends.
Parts: Part Parts ;

Part:
    TEXT
  | '{' Path '}'
  | Repeated
  ;

Path:
    NAME
  | Path '.' NAME
  ;

Repeated: "{each" Path '}' Parts "{end}" ;
