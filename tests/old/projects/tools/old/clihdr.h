// Header of the small commands
GET "LIBHDR"
MANIFEST $( return_ok = 0; return_bad = 20 $)
GLOBAL $( rc:150; argv:151; note.error:152 $)
