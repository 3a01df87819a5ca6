// The report, and abs: what is left of an amount that may not be negative.
get "ledger.h"

let abs[n] = n ls 0 -> 0, n

and report[] be
[  width _ size*(2+1)
   for i = 1 to size do writef["%i2%i6*n", i, sums*[i]]
   writef["%n entries, %n columns*n", sums*(0), width]
]
