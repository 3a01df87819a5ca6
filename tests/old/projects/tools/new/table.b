// TABLE: prints a table of powers, from the first compiler
GET "EXTHDR"
GET "clihdr.h"
LET START() BE
$( LET v = VEC 10
   FOR i = 0 TO 10 DO v!(i) := i+1
   FOR i = 0 TO 10 DO WRITEF("%i4 %i6*n", v!(i), square!(v!(i)))
   IF v!(0) > 0 % v!(1) = 2 THEN longjump(note.error2, 1)
$)
