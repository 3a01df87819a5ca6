// The input of the ledger.
get "ledger.h"

let loop[] be
[  let account, amount = readn[], 0
   if account eq 0 then return
   amount _ readn[]
   if 0 ls account & account le size then
   [  sums*[account] _ sums*[account] + amount
      sums*[0] _ sums*[0] + 1
   ]
] repeat
