" Syntax of BCPL with words of 16 bits, as docs/language.md has it.
if exists('b:current_syntax')
  finish
endif
syntax case match
" A name takes all its letters, digits and dots, so that LET.X is no LET.
syntax match bcplName /[A-Za-z][A-Za-z0-9.]*/
syntax match bcplCall /[A-Za-z][A-Za-z0-9.]*\ze\s*(/
syntax match bcplDeclaration /\v<%(LET|AND|MANIFEST|STATIC|GLOBAL|BE|VALOF|VEC|TABLE)>[A-Za-z0-9.]@!/
syntax match bcplInclude /\v<GET>[A-Za-z0-9.]@!/
syntax match bcplConditional /\v<%(IF|UNLESS|TEST|THEN|ELSE|OR|DO|SWITCHON|INTO)>[A-Za-z0-9.]@!/
syntax match bcplLabel /\v<%(CASE|DEFAULT)>[A-Za-z0-9.]@!/
syntax match bcplRepeat /\v<%(FOR|TO|BY|WHILE|UNTIL|REPEAT|REPEATWHILE|REPEATUNTIL)>[A-Za-z0-9.]@!/
syntax match bcplStatement /\v<%(BREAK|LOOP|ENDCASE|RETURN|FINISH|RESULTIS|GOTO)>[A-Za-z0-9.]@!/
syntax match bcplOperator /\v<%(EQ|NE|LS|LE|GR|GE|LSHIFT|RSHIFT|LOGAND|LOGOR|NOT|EQV|NEQV|REM)>[A-Za-z0-9.]@!/
syntax match bcplBoolean /\v<%(TRUE|FALSE)>[A-Za-z0-9.]@!/
syntax match bcplSign /\%(:=\|->\|\/\\\|\\\/\|\~=\|<=\|>=\|<<\|>>\|[-+*\/&|=<>~(),;:!@]\)/
syntax match bcplBracket /\$[()][A-Za-z0-9.]*/
syntax match bcplNumber /\d\+\|#\o\+\|#X\x\+/
syntax match bcplEscape /\*[NTSBPCntsbpc"'*]/ contained
syntax match bcplBadEscape /\*[^NTSBPCntsbpc"'*]/ contained
syntax region bcplString start=/"/ skip=/\*./ end=/"/ end=/$/ oneline contains=bcplEscape,bcplBadEscape
syntax match bcplCharacter /'\%(\*[NTSBPCntsbpc"'*]\|[^*']\)'/ contains=bcplEscape
syntax keyword bcplTodo TODO FIXME contained
syntax region bcplComment start=/\/\/\|||/ end=/$/ oneline contains=bcplTodo
syntax region bcplComment start=/\/\*/ end=/\*\// contains=bcplTodo
syntax sync ccomment bcplComment minlines=50

highlight default link bcplCall Function
highlight default link bcplDeclaration Type
highlight default link bcplInclude Include
highlight default link bcplConditional Conditional
highlight default link bcplLabel Label
highlight default link bcplRepeat Repeat
highlight default link bcplStatement Statement
highlight default link bcplOperator Operator
highlight default link bcplBoolean Boolean
highlight default link bcplSign Operator
highlight default link bcplBracket Delimiter
highlight default link bcplNumber Number
highlight default link bcplString String
highlight default link bcplEscape SpecialChar
highlight default link bcplBadEscape Error
highlight default link bcplCharacter Character
highlight default link bcplComment Comment
highlight default link bcplTodo Todo
let b:current_syntax = 'bcpl'
