GET "lex-1.b" //  Counts symbols
LET START() BE
$( LET N = VEC S.OTHER
   FOR I = 0 TO S.OTHER DO N!I := 0
   COUNT := 0
   RCH()
   $( NEXTSYMB()
      N!SYMB := N!SYMB+1 $) REPEATUNTIL SYMB=S.END
   WRITES("COUNTED")
   WRITEN(N!S.NAME); NEWLINE()
   WRITEN(N!S.NUMBER); NEWLINE()
   WRITEN(COUNT); NEWLINE()
$)

//  Its own, as the kit allows
AND WRITEN(N) BE $( WRITES(" <"); IF N>9 DO WRCH(N/10+'0'); WRCH(N REM 10+'0'); WRCH('>') $)
