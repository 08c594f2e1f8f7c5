// Searches in an archive: words and phrases, joined by operators. A name is misspelled, and cfglint reports what follows from it.

%token WORD PHRASE

%left "or"
%left "and"
%right "NOT"

%%

Search: Terms ;

// Terms beside each other have to be found together.
Terms:
    Term
  | Terms Term
  ;

Term:
    WORD
  | PHRASE
  | Term "or" Term
  | Term "and" Term
  | "not" Term
  | "(" Terms ")"
  ;
