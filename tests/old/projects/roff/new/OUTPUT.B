// RUNOFF: filled lines.   This section is older, from the Titan's program of 1972
GET "RFHDR.H"

LET flush() BE
$(1 UNLESS out.len=0 DO
    $(2 FOR I = 1 TO indent DO WRCH('*S')
        FOR I = 1 TO out.len DO WRCH(out.buf!I)
        NEWLINE()
        line.no := line.no + 1
        out.len := 0
$)1

AND put.word() BE
$(1 LET N = word.len
    IF out.len + N + 1 > page.width - indent LOGOR out.len GE max.line - N DO flush()
    UNLESS out.len EQ 0 DO
    $(2 out.len := out.len + 1
        ! (out.buf + out.len) := '*S'  $)2
    FOR I = 1 TO N DO
        out.buf!(out.len+I) := word.buf!I
    out.len := out.len + N
$)1
