// A compiler's lexer of 1972 in one file: names, then the sections that use them
GET "LIBHDR"
GLOBAL $( CH:150; SYMB:151; NEXTSYMB:152; RCH:153; COUNT:154 $)
MANIFEST $( S.NAME=1; S.NUMBER=2; S.END=3; S.OTHER=4 $)

