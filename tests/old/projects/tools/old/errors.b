// The routine of errors, for all commands
get "CLIHDR"
let note.error(s) be $( rc := return_bad; writes(s); writehexx(rc, 4) $)
