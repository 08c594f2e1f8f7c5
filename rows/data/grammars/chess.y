%start Game%token Piece File Rank Result Number %%Game:Tags Moves Result;Tags:|Tags Tag;Tag:"["Name Text"]";
Name:"Event"|"Site"|"Date"|"Round"|"White"|"Black"|"Result"|"ECO"|"Opening"|"Annotator"|"PlyCount"
|"TimeControl"|"Termination"|"SetUp"|"FEN"/*a position in one line*/;Text:'"' Words '"';Words:|Words Word;
Word:Piece|File|Rank|Result|Number|"?"|"."|","|"-"|" ";// the words of a text are whatever the lexer finds
Moves:|Moves Turn;Turn:Count Move|Count Move Move|Count "..." Move;Count:Number|Number".";Move:Ply Glyphs Asides;
Ply:Step Mate|"O-O"Mate|"O-O-O"Mate|"--";Mate:|"+"|"#"|"++";Step:Square|File"x"Square|Piece Square|Piece"x"Square
|Piece From Square|Piece From"x"Square|Square"="Piece|File"x"Square"="Piece;From:File|Rank|Square;Square:File Rank;
Glyphs:|Glyphs Glyph;Glyph:"!"|"?"|"!!"|"??"|"!?"|"?!"|"$"Number|'♔'|'♕'|'⩲'|'🨀';/* signs in comments
and glyphs may have two, three and four bytes: ± ♖ 🨁 */Asides:|Asides Aside;Aside:"{"Words"}"|"("Line")";
Line:Turn|Line Turn;