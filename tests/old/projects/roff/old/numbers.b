// RUNOFF: numbers: of commands, with the names of number registers, and in Roman digits
section "NUMBERS"
get "rfhdr"

let number_at(p, otherwise) = valof
$( let n = 0
   unless next_word(p) resultis otherwise
   if 'a' <= word_buf%1 <= 'z' resultis value_of(word_buf%1)
   for i = 1 to word_buf%0 do
   $( let c = word_buf%i
      unless '0' <= c <= '9' do $( fail("not a number"); break $)
      n := n*10 + c - '0'
   $)
   resultis n
$)

and roman(n) be
$( let digits = "m2d5c2l5x2v5i"
   let v, i = 1000, 1
   $( while n >= v do $( wrch(digits%i); n -:= v $)
      if n = 0 | i >= digits%0 break
      let next = i + 2
      let unit = v/(digits%(i+1) - '0')
      if digits%(i+1) = '2' do
      $( next := next + 2
         unit := unit/5
      $)
      if n >= v - unit & n > 0 do
      $( wrch(digits%next); wrch(digits%i); n -:= v - unit $)
      v := v/(digits%(i+1) - '0')
      i +:= 2
   $) repeat
$)
