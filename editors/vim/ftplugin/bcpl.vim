" Settings for BCPL sources.
if exists('b:did_ftplugin')
  finish
endif
let b:did_ftplugin = 1
setlocal commentstring=//\ %s comments=s1:/*,mb:*,ex:*/,:// expandtab shiftwidth=3 softtabstop=3
setlocal iskeyword=@,48-57,.
setlocal suffixesadd=.bcpl
" :make builds the source and fills the list of errors.
compiler bcpl
let b:undo_ftplugin = 'setlocal commentstring< comments< expandtab< shiftwidth< softtabstop< iskeyword< suffixesadd< makeprg< errorformat<'

if exists('*s:Underline')
  finish
endif

" Underlines the places of errors and warnings in this window, after each :make.
function! s:Underline() abort
  for l:id in get(w:, 'bcpl_places', [])
    silent! call matchdelete(l:id)
  endfor
  let w:bcpl_places = []
  for l:entry in filter(getqflist(), 'v:val.valid && v:val.bufnr == bufnr("%")')
    let l:length = max([1, strlen(matchstr(getline(l:entry.lnum), '^[A-Za-z0-9.]*', l:entry.col - 1))])
    call add(w:bcpl_places, matchaddpos(l:entry.type ==? 'W' ? 'SpellCap' : 'SpellBad', [[l:entry.lnum, l:entry.col, l:length]]))
  endfor
endfunction

augroup bcpl
  autocmd!
  autocmd QuickFixCmdPost make if &filetype ==# 'bcpl' | call s:Underline() | endif
augroup END
