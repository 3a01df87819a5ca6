// The ledger: adds up the amounts of each account. An account 0 ends the input.
GET "ledger.h"

LET START() BE
$(  LET v = VEC size
   sums := v
   FOR i = 0 TO size DO sums!(i) := 0
   loop()
   report()
   WRITEF("kept %n*n", abs(sums!(1)))
$)
