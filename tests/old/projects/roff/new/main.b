// RUNOFF: the main program
/* section "RUNOFF" */
GET "rfhdr"

LET START() BE
$( LET lb = VEC max.line AND wb = VEC max.word AND ob = VEC max.line
   LET ws = VEC 21 AND st = VEC 60
   line.buf, word.buf, out.buf := lb, wb, ob
   word.buf2, symbols := ws, st
   page.width, indent := 40, 0
   line.no, page.no, errors, filling := 0, 1, 0, TRUE
   symbols!0 := 0
   out.len := 0
   ch := RDCH()
   UNTIL ch = end.stream DO
   $( read.line()
      TEST line.len > 0 & GETBYTE(line.buf,1) = '.' THEN
         do.command()
      OR TEST line.len = 0 THEN $( flush(); blank.lines(1) $)
      OR $( LET at = 1
            WHILE next.word(@at) DO put.word()
            UNLESS filling DO flush()
         $)
   $)
   flush()
   blank.lines(1)
   WRITEF("%n line%s, %n error%s, page ", line.no, (line.no = 1 -> "", "s"), errors, (errors=1 -> "", "s"))
   roman(page.no)
   NEWLINE()
$)
