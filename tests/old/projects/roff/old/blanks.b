// RUNOFF: blank lines, and text as it is
section "BLANKS"
get "rfhdr"

let blank_lines(n) be
   for i = 1 to n do $( newline(); line_no +:= 1 $)

and put_string(s) be
   for i = 1 to s%0 do wrch(s%i)
