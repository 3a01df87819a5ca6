" BCPL sources by their suffix, and headers without one by their text.
autocmd BufNewFile,BufRead *.bcpl,*.bcp setfiletype bcpl
autocmd BufRead * if expand('<afile>:t') !~# '\.'
  \ && match(getline(1, 100), '\C^\s*\%(GET\s*"\|\%(GLOBAL\|MANIFEST\|STATIC\)\s*\%($\|\$(\)\)') >= 0 | setfiletype bcpl | endif
