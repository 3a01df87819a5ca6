// RUNOFF: lines of the input
/* section "INPUT" */
GET "RFHDR"

LET read.line() BE
$(  line.len := 0
   UNTIL ch = '*n' | ch = end.stream DO
   $(  IF line.len < max.line DO
      $(  line.len := line.len + 1
         PUTBYTE(line.buf,line.len, ch = '*t' -> ' ', ch)
      $)
      ch := RDCH()
   $)
   IF ch = '*n' DO ch := RDCH()
   PUTBYTE(line.buf,0, line.len)
$)
