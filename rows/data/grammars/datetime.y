/* Dates, times and durations as people type them into a calendar:

       2024-02-29T12:30:00+01:00      29 February 2024, half past noon
       tomorrow at 8                  every 2nd Friday until Easter
       in 3 weeks and 2 days          P1Y2M10DT2H30M

   Numbers come by their count of digits. */

%token D1 D2 D4 FRACTION
%token Month Weekday Feast          // by name, long or short
%token Unit                         // second .. century, also the plural
%token Ordinal                      // 1st, 2nd, third
%token Zone                         // CET, PST, ..

%start When %%

When: Moment | Span | Repeated | Moment Until Moment;

Until: '-' | '–' | "to" | "until" | '…';

/* ---- moments ---- */

Moment: Date | Time | Date Time | Date 'T' Clock Offset | Date "at" Time | Time "on" Date
      | Span "ago" | "in" Span | Span "from" Moment | "now" | '@' D4;

Date: Iso
    | D2 Slash D2 Slash Year | D1 Slash D1 Slash Year | D1 Slash D2 Slash Year | D2 Slash D1 Slash Year
    | Day '.' Day '.' | Day '.' Day '.' Year
    | Day Month | Day Month Year | Month Day | Month Day ',' Year | Month Year
    | Ordinal Month | Ordinal "of" Month | "the" Ordinal | "the" Ordinal "of" Month
    | Relative
    | Weekday | Weekday ',' Date;

Iso: D4 '-' D2 '-' D2 | D4 '-' D2 | D4 '-' 'W' D2 | D4 '-' 'W' D2 '-' D1
   | D4 D4 /* year, month and day without signs */;

Slash: '/';
Year: D4 | '’' D2 | "'" D2;
Day: D1 | D2;

Relative: "today" | "tomorrow" | "yesterday" | Which Unit | Which Weekday | Which Month | Feast | Feast Year;
Which: "this" | "next" | "last";

/* ---- times of a day ---- */

Time: Clock Zoned | Day Half | Clock Half | "noon" | "midnight"
    | "half" "past" Day | "quarter" Direction Day | Day Direction Day | Day "o’clock";
Direction: "past" | "to";

Clock: Day ':' D2 | Day ':' D2 ':' D2 | Day ':' D2 ':' D2 FRACTION | Day 'h' | Day 'h' D2;
Half: "am" | "pm" | "a.m." | "p.m.";

Zoned: Offset | Zone | Zone Offset;
Offset: | 'Z' | Sign D2 | Sign D4 | Sign D2 ':' D2;
Sign: '+' | '-' | '−';       /* the last one is U+2212 */

/* ---- spans ---- */

Span: Amount | Span "and" Amount | Span ',' Amount | 'P' Parts | 'P' Parts 'T' Parts | 'P' 'T' Parts;
Amount: Number Unit | Article Unit | "half" Article Unit | Number '½' Unit;
Article: "a" | "an";
Number: D1 | D2 | D4 | D1 FRACTION | D2 FRACTION;
Parts: Part | Parts Part;
Part: Number Letter;
Letter: 'Y' | 'M' | 'W' | 'D' | 'H' | 'S';

/* ---- what comes again ---- */

Repeated: "every" Turn Bounds | "daily" Bounds | "weekly" "on" Weekdays Bounds;
Turn: Unit | Number Unit | Weekdays | Ordinal Weekday | Ordinal "of" "the" Unit | "other" Unit;
Weekdays: Weekday | Weekdays ',' Weekday | Weekdays "and" Weekday;
Bounds: | Bounds "from" Date | Bounds "until" Date | Bounds "at" Time | Bounds D2 "times" | Bounds D1 "times";
