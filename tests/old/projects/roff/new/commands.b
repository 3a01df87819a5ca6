// RUNOFF: commands, which begin with a full stop
/* section "COMMANDS" */
GET "rfhdr"

LET do.command() BE
$(  LET at = 2
   UNLESS next.word(@at) DO $( fail("no command"); RETURN $)
   IF same(word.buf2, "br") DO $( flush(); RETURN $)
   IF same(word.buf2, "sp") DO $( flush(); blank.lines(number.at(@at, 1)); RETURN $)
   IF same(word.buf2, "in") DO $( flush(); indent := number.at(@at, 0); RETURN $)
   IF same(word.buf2, "pw") DO $( flush(); page.width := number.at(@at, 40); RETURN $)
   IF same(word.buf2, "nf") DO $( flush(); filling := FALSE; RETURN $)
   IF same(word.buf2, "fi") DO $( flush(); filling := TRUE; RETURN $)
   IF same(word.buf2, "ce") DO $( flush(); centre(@at); RETURN $)
   IF same(word.buf2, "nr") DO
   $(  IF next.word(@at) DO define(number.at(@at, 0))
      RETURN $)
   fail("unknown command")
$)
