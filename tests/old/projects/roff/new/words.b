/* RUNOFF: the next word of a line, from the column whose address is P.
   The word is left in word_buf as a string. */
/* section "WORDS" */
GET "rfhdr"

LET next.word(p) = VALOF
$( LET i = !p
   WHILE i <= line.len & GETBYTE(line.buf,i) = '*s' DO i := i + 1
   IF i > line.len RESULTIS FALSE
   word.len := 0
   UNTIL i > line.len | GETBYTE(line.buf,i) = '*s' DO
   $( IF word.len < max.word DO
      $( word.len := word.len + 1
         word.buf!word.len := GETBYTE(line.buf,i)
      $)
      i := i + 1
   $)
   FOR j = 1 TO word.len DO PUTBYTE(word.buf2,j, word.buf!j)
   PUTBYTE(word.buf2,0, word.len)
   !p := i
   RESULTIS TRUE
$)
