// RUNOFF: strings without regard to case
/* section "STRINGS" */
GET "rfhdr"

LET upper(c) = ('a' <= c)&(c <= 'z') -> c - 'a' + 'A', c

AND same(s, t) = VALOF
$( UNLESS GETBYTE(s,0) = GETBYTE(t,0) RESULTIS FALSE
   FOR i = 1 TO GETBYTE(s,0) DO UNLESS upper(GETBYTE(s,i)) = upper(GETBYTE(t,i)) RESULTIS FALSE
   RESULTIS TRUE
$)

