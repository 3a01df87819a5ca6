// RUNOFF: number registers, as pairs of a letter and a value
/* section "SYMBOLS" */
GET "rfhdr"

STATIC $( last.used=0 $)

LET define(n) BE
$( LET name = word.buf!1
   LET i = 0
   i := 1
   // the letter of the register was read before the number: see NEXT
   name := last.used = 0 -> 'a', last.used + 1
   last.used := name
   symbols!(symbols!0 + i), symbols!(symbols!0 + i + 1) := name, n
   symbols!0 := symbols!0 + 2
$)

AND value.of(letter) = VALOF
$( FOR i = 1 TO symbols!0 BY 2 DO
      IF symbols!i = letter RESULTIS symbols!(i+1)
   fail("no such register")
   RESULTIS 0
$)

