GET "lex-1.b" //  Reads a symbol
LET RCH() BE $( CH := RDCH(); COUNT := COUNT+1 $)

AND NEXTSYMB() BE
$(1
NEXT: SWITCHON CH INTO
   $( CASE '*S': CASE '*N': RCH()
                            GOTO NEXT

      CASE '0': CASE '1': CASE '2':
            RCH() REPEATWHILE ('0'<=CH)&(CH<='9')
            SYMB := S.NUMBER
            RETURN

      DEFAULT: UNLESS CH=ENDSTREAMCH DO GOTO TEMP.1;
      CASE '.': $( SYMB := S.END
                   RETURN $); TEMP.1:
               SYMB := ('A'<=CH)&(CH<='Z') -> S.NAME, S.OTHER
               RCH() $)  $)1

