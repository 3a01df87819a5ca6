/* RUNOFF: the next word of a line, from the column whose address is P.
   The word is left in word_buf as a string. */
section "WORDS"
get "rfhdr"

let next_word(p) = valof
$( let i = !p
   while i <= line_len & line_buf%i = '*s' do i +:= 1
   if i > line_len resultis false
   word_len := 0
   until i > line_len | line_buf%i = '*s' do
   $( if word_len < max_word do
      $( word_len +:= 1
         word.buf!word_len := line_buf%i
      $)
      i +:= 1
   $)
   for j = 1 to word_len do word_buf%j := word.buf!j
   word_buf%0 := word_len
   !p := i
   resultis true
$)
