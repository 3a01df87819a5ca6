// RUNOFF: a centred line
section "CENTRE"
get "rfhdr"

let centre(p) be
$( let from = !p
   while from <= line_len & line_buf%from = ' ' do from +:= 1
   let n = line_len - from + 1
   for i = 1 to (page_width - n)/2 do wrch(' ')
   for i = from to line_len do wrch(line_buf%i)
   newline()
   line_no +:= 1
$)
