// A compiler's lexer of 1972 in one file: names, then the sections that use them
GET "LIBHDR"
GLOBAL $( CH:150; SYMB:151; NEXTSYMB:152; RCH:153; COUNT:154 $)
MANIFEST $( S.NAME=1; S.NUMBER=2; S.END=3; S.OTHER=4 $)
.
//  Reads a symbol
LET RCH() BE $( CH := RDCH(); COUNT := COUNT+1 $)

AND NEXTSYMB() BE
$(1
NEXT: SWITCHON CH INTO
   $( CASE '*S': CASE '*N': RCH()
                            GOTO NEXT

      CASE '0': CASE '1': CASE '2':
            RCH() REPEATWHILE '0'<=CH<='9'
            SYMB := S.NUMBER
            RETURN

      DEFAULT: IF CH=ENDSTREAMCH DO
      CASE '.': $( SYMB := S.END
                   RETURN $)
               SYMB := 'A'<=CH<='Z' -> S.NAME, S.OTHER
               RCH() $)  $)1
.
//  Counts symbols
LET START() BE
$( LET N = VEC S.OTHER
   FOR I = 0 TO S.OTHER DO N!I := 0
   COUNT := 0
   RCH()
   $( NEXTSYMB()
      N!SYMB := N!SYMB+1 $) REPEATUNTIL SYMB=S.END
   WRITES("COUNTED")
   WRITEN(N!S.NAME); NEWLINE()
   WRITEN(N!S.NUMBER); NEWLINE()
   WRITEN(COUNT); NEWLINE()
$)

//  Its own, as the kit allows
AND WRITEN(N) BE $( WRITES(" <"); IF N>9 DO WRCH(N/10+'0'); WRCH(N REM 10+'0'); WRCH('>') $)
