// RUNOFF: numbers: of commands, with the names of number registers, and in Roman digits
/* section "NUMBERS" */
GET "rfhdr"

LET number.at(p, otherwise) = VALOF
$( LET n = 0
   UNLESS next.word(p) RESULTIS otherwise
   IF ('a' <= GETBYTE(word.buf2,1))&(GETBYTE(word.buf2,1) <= 'z') RESULTIS value.of(GETBYTE(word.buf2,1))
   FOR i = 1 TO GETBYTE(word.buf2,0) DO
   $( LET c = GETBYTE(word.buf2,i)
      UNLESS ('0' <= c)&(c <= '9') DO $( fail("not a number"); BREAK $)
      n := n*10 + c - '0'
   $)
   RESULTIS n
$)

AND roman(n) BE
$( LET digits = "m2d5c2l5x2v5i"
   LET v, i = 1000, 1
   $( WHILE n >= v DO $( WRCH(GETBYTE(digits,i)); n := n - v $)
      IF n = 0 | i >= GETBYTE(digits,0) BREAK
      $( LET next = i + 2
      LET unit = v/(GETBYTE(digits,(i+1)) - '0')
      IF GETBYTE(digits,(i+1)) = '2' DO
      $( next := next + 2
         unit := unit/5
      $)
      IF n >= v - unit & n > 0 DO
      $( WRCH(GETBYTE(digits,next)); WRCH(GETBYTE(digits,i)); n := n - (v - unit) $)
      v := v/(GETBYTE(digits,(i+1)) - '0')
      i := i + 2
   $) $) REPEAT
$)
