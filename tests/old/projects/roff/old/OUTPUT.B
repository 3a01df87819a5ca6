// RUNOFF: filled lines.   This section is older, from the Titan's program of 1972
GET "RFHDR.H"

LET flush() BE
$(1 UNLESS out_len=0 DO
    $(2 FOR I = 1 TO indent DO wrch('*S')
        FOR I = 1 TO out_len DO wrch(out_buf!I)
        newline()
        line_no := line_no + 1
        out_len := 0
$)1

AND put_word() BE
$(1 LET N = word_len
    IF out_len + N + 1 > page_width - indent LOGOR out_len GE max_line - N DO flush()
    UNLESS out_len EQ 0 DO
    $(2 out_len := out_len + 1
        RV (out_buf + out_len) := '*S'  $)2
    FOR I = 1 TO N DO
        out_buf!(out_len+I) := word.buf!I
    out_len := out_len + N
$)1
