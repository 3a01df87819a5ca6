// RUNOFF: the main program
section "RUNOFF"
get "rfhdr"

let start() be
$( let lb, wb, ob = vec max_line, vec max_word, vec max_line
   let ws, st = vec 21, vec 60
   line_buf, word.buf, out_buf := lb, wb, ob
   word_buf, symbols := ws, st
   page_width, indent := 40, 0
   line_no, page_no, errors, filling := 0, 1, 0, true
   symbols!0 := 0
   out_len := 0
   ch := rdch()
   until ch = end_stream do
   $( read_line()
      test line_len > 0 & line_buf%1 = '.' then
         do_command()
      or test line_len = 0 then $( flush(); blank_lines(1) $)
      or $( let at = 1
            while next_word(@at) do put_word()
            unless filling do flush()
         $)
   $)
   flush()
   blank_lines(1)
   writef("%n line%s, %n error%s, page ", line_no, (line_no = 1 -> "", "s"), errors, (errors=1 -> "", "s"))
   roman(page_no)
   newline()
$)
