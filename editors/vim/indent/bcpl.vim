" Indentation of BCPL sources. A line in a section bracket is indented to three columns after the bracket, as in
"
"    LET START() BE
"    $( LET X = 1
"       WRITEN(X)
"    $)
if exists('b:did_indent')
  finish
endif
let b:did_indent = 1
setlocal indentexpr=BcplIndent(v:lnum) indentkeys=!^F,o,O,0=$),0=$(,0=THEN,0=ELSE,0=OR,0=LET,0=AND
let b:undo_indent = 'setlocal indentexpr< indentkeys<'

if exists('*BcplIndent')
  finish
endif

" Whether the cursor is in a comment, a string or a character constant.
function! s:InText() abort
  return synIDattr(synID(line('.'), col('.'), 0), 'name') =~# 'Comment\|String\|Character\|Escape'
endfunction

" A line without comments at its end.
function! s:Code(lnum) abort
  return substitute(substitute(getline(a:lnum), '"\%(\*.\|[^"*]\)*"', '""', 'g'), '\s*\%(//\|||\).*$', '', '')
endfunction

" The line before this one that has code, or 0.
function! s:Before(lnum) abort
  let l:lnum = prevnonblank(a:lnum - 1)
  while l:lnum > 0
    call cursor(l:lnum, indent(l:lnum) + 1)
    if synIDattr(synID(l:lnum, indent(l:lnum) + 1, 0), 'name') !~# 'Comment'
      return l:lnum
    endif
    let l:lnum = prevnonblank(l:lnum - 1)
  endwhile
  return 0
endfunction

" The column, counted from 0, at which the command of a line begins: after an opening bracket.
function! s:Begin(lnum) abort
  return strlen(matchstr(getline(a:lnum), '^\s*\%(\$([A-Za-z0-9.]* *\)*'))
endfunction

" The opening bracket around the beginning of a line, as [line, column], or [0, 0].
function! s:Open(lnum) abort
  call cursor(a:lnum, 1)
  return searchpairpos('\$(', '', '\$)', 'bnW', 's:InText()')
endfunction

function! BcplIndent(lnum) abort
  let l:place = getpos('.')
  let [l:line, l:column] = s:Open(a:lnum)
  " A bracket that ends its line opens a list that is indented from the line's beginning.
  let l:ends = l:line > 0 && s:Code(l:line) =~# '\$([A-Za-z0-9.]*$' && l:column + strlen(matchstr(s:Code(l:line), '\$([A-Za-z0-9.]*$')) > strlen(s:Code(l:line))
  let l:base = l:line == 0 ? 0 : l:ends && l:column > indent(l:line) + 1 ? indent(l:line) + 3 : l:column + 2
  let l:text = getline(a:lnum)
  let l:before = s:Before(a:lnum)
  let l:indent = l:base
  if l:text =~# '^\s*\$)'
    let l:indent = l:line == 0 ? 0 : l:base - 3
  elseif l:text =~# '^\s*[A-Za-z][A-Za-z0-9.]*:\s*$' && l:text !~# '\<DEFAULT:'
    " A label of GOTO.
    let l:indent = 0
  elseif l:before == 0 || l:text =~# '^\s*\%(AND\|STATIC\|GLOBAL\|MANIFEST\|GET\)\>' || l:line == 0 && l:text =~# '^\s*LET\>'
    let l:indent = l:base
  elseif l:text =~# '^\s*\%(THEN\|ELSE\|OR\)\>'
    " With the TEST, at the nearest line of the same section that begins with one, or with its other way.
    let l:lnum = l:before
    while l:lnum > l:line && !(s:Open(l:lnum) == [l:line, l:column] && getline(l:lnum) =~# '^\s*\%(TEST\|THEN\|ELSE\|OR\|IF\)\>')
      let l:lnum = s:Before(l:lnum)
    endwhile
    let l:indent = l:lnum > l:line ? indent(l:lnum) : l:base
  elseif l:before >= l:line && s:Code(l:before) =~# '\%(\<\%(BE\|VALOF\|DO\|THEN\|ELSE\|OR\|INTO\|REPEATWHILE\|REPEATUNTIL\)\|[-+*/=&|,<>]\|->\)$'
        \ || s:Code(l:before) =~# '\<CASE\>.*:$' && l:text =~# '^\s*\$('
    " What the line before this one begins goes on here: its block at the same column, anything else further in.
    let l:begin = l:before == l:line ? s:Begin(l:before) : indent(l:before)
    let l:indent = l:text =~# '^\s*\$(' ? l:begin : l:begin + 2
    " The operands of a long expression stay where they were put.
    if s:Code(l:before) =~# '[-+*/=&|,<>]$' && s:Code(l:before) !~# ') =$' && indent(a:lnum) > l:base
      let l:indent = indent(a:lnum)
    endif
  elseif s:Code(l:before) =~# '\<\%(CASE\>.*\|DEFAULT\):$'
    let l:indent = l:base + 2
  elseif l:before > l:line && s:Code(l:before) !~# '\<\%(CASE\>.*\|DEFAULT\):' && indent(l:before) == l:base + 2
        \ && s:InCase(l:before, l:line, l:base) && l:text !~# '^\s*\%(CASE\|DEFAULT\)\>'
    let l:indent = l:base + 2
  endif
  call setpos('.', l:place)
  return l:indent
endfunction

" Whether the lines that go up from here, further in than the section, end at a CASE without a command.
function! s:InCase(lnum, line, base) abort
  let l:lnum = a:lnum
  while l:lnum > a:line && indent(l:lnum) > a:base
    let l:lnum = s:Before(l:lnum)
  endwhile
  return l:lnum >= a:line && s:Code(l:lnum) =~# '\<\%(CASE\>.*\|DEFAULT\):$'
endfunction
