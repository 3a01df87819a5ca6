// RUNOFF: blank lines, and text as it is
/* section "BLANKS" */
GET "rfhdr"

LET blank.lines(n) BE
   FOR i = 1 TO n DO $( NEWLINE(); line.no := line.no + 1 $)

AND put.string(s) BE
   FOR i = 1 TO GETBYTE(s,0) DO WRCH(GETBYTE(s,i))
