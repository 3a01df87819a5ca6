// Header of the ledger, 1968. abs is our own routine, and loop was no reserved word then.
GET "EXTHDR"
MANIFEST $( size = 3 $)
GLOBAL $( sums:200; loop:201; abs:202; report:203; width:204 $)
