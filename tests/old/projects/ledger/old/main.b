// The ledger: adds up the amounts of each account. An account 0 ends the input.
get "ledger.h"

let start[] be
[  let v = vec size
   sums _ v
   for i = 0 to size do sums*[i] _ 0
   loop[]
   report[]
   writef["kept %n*n", abs[sums*[1]]]
]
