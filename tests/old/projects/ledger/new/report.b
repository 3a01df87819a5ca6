// The report, and abs: what is left of an amount that may not be negative.
GET "ledger.h"

LET abs(n) = n LS 0 -> 0, n

AND report() BE
$(  width := size*(2+1)
   FOR i = 1 TO size DO WRITEF("%i2%i6*n", i, sums!(i))
   WRITEF("%n entries, %n columns*n", sums!(0), width)
$)
