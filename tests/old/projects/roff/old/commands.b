// RUNOFF: commands, which begin with a full stop
section "COMMANDS"
get "rfhdr"

let do_command() be
[  let at = 2
   unless next_word(@at) do [ fail("no command"); return ]
   if same(word_buf, "br") do [ flush(); return ]
   if same(word_buf, "sp") do [ flush(); blank_lines(number_at(@at, 1)); return ]
   if same(word_buf, "in") do [ flush(); indent := number_at(@at, 0); return ]
   if same(word_buf, "pw") do [ flush(); page_width := number_at(@at, 40); return ]
   if same(word_buf, "nf") do [ flush(); filling := false; return ]
   if same(word_buf, "fi") do [ flush(); filling := true; return ]
   if same(word_buf, "ce") do [ flush(); centre(@at); return ]
   if same(word_buf, "nr") do
   [  if next_word(@at) do define(number_at(@at, 0))
      return ]
   fail("unknown command")
]
