// RUNOFF: errors
/* section "ERRORS" */
GET "rfhdr"

LET fail(s) BE
$( errors := errors + 1
   put.string("?? ")
   WRITEF("%s: ", s)
   put.string(line.buf)
   NEWLINE()
$)

