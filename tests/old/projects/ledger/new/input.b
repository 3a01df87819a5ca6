// The input of the ledger.
GET "ledger.h"

LET loop() BE
$(  LET account, amount = READN(), 0
   IF account EQ 0 THEN RETURN
   amount := READN()
   IF 0 LS account & account LE size THEN
   $(  sums!(account) := sums!(account) + amount
      sums!(0) := sums!(0) + 1
   $)
$) REPEAT
