// RUNOFF: lines of the input
section "INPUT"
get "RFHDR"

let read_line() be
{  line_len := 0
   until ch = '*n' | ch = end_stream do
   {  if line_len < max_line do
      {  line_len +:= 1
         line_buf%line_len := ch = '*t' -> ' ', ch
      }
      ch := rdch()
   }
   if ch = '*n' do ch := rdch()
   line_buf%0 := line_len
}
