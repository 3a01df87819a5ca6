// RUNOFF: number registers, as pairs of a letter and a value
section "SYMBOLS"
get "rfhdr"

static $( last_used $)

let define(n) be
$( let name = word.buf!1
   let i = ?
   i := 1
   // the letter of the register was read before the number: see NEXT
   name := last_used = 0 -> 'a', last_used + 1
   last_used := name
   symbols!(symbols!0 + i), symbols!(symbols!0 + i + 1) := name, n
   symbols!0 +:= 2
$)

and value_of(letter) = valof
$( for i = 1 to symbols!0 by 2 do
      if symbols!i = letter resultis symbols!(i+1)
   fail("no such register")
   resultis 0
$)
.
// RUNOFF: errors
section "ERRORS"
get "rfhdr"

let fail(s) be
$( errors +:= 1
   put_string("?? ")
   writef("%s: ", s)
   put_string(line_buf)
   newline()
$)
.
// RUNOFF: strings without regard to case
section "STRINGS"
get "rfhdr"

let upper(c) = 'a' <= c <= 'z' -> c - 'a' + 'A', c

and same(s, t) = valof
$( unless s%0 = t%0 resultis false
   for i = 1 to s%0 do unless upper(s%i) = upper(t%i) resultis false
   resultis true
$)
.
