// The routine of errors, for all commands
GET "CLIHDR"
LET note.error(s) BE $( rc := return.bad; WRITES(s); writehexx(rc, 4) $)
