// TABLE: prints a table of powers, from the first compiler
get "libhdr"
get "clihdr.h"
let start() be
$( let v = vec 10
   for i = 0 to 10 do v*(i) := i+1
   for i = 0 to 10 do writef("%i4 %i6*n", v*(i), square*(v*(i)))
   if v*(0) > 0 % v*(1) = 2 then longjump(note_error, 1)
$)
