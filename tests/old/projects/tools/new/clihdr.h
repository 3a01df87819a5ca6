// Header of the small commands
GET "EXTHDR"
MANIFEST $( return.ok = 0; return.bad = 20 $)
GLOBAL $( rc:150; argv:151; note.error:152 $)
