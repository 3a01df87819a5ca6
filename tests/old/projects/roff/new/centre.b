// RUNOFF: a centred line
/* section "CENTRE" */
GET "rfhdr"

LET centre(p) BE
$( LET from = !p
   WHILE from <= line.len & GETBYTE(line.buf,from) = ' ' DO from := from + 1
   $( LET n = line.len - from + 1
   FOR i = 1 TO (page.width - n)/2 DO WRCH(' ')
   FOR i = from TO line.len DO WRCH(GETBYTE(line.buf,i))
   NEWLINE()
   line.no := line.no + 1
$) $)
