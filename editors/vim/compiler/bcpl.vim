" :make builds the current source into FILE.int. :cnext leads through errors and warnings. g:bcpl_include is the list of
" the folders with headers.
if exists('current_compiler')
  finish
endif
let current_compiler = 'bcpl'
if exists(':CompilerSet') != 2
  command -nargs=* CompilerSet setlocal <args>
endif
let s:make = ['bcpl build --places always'] + map(copy(get(g:, 'bcpl_include', [])), '"--include " . shellescape(v:val)')
execute 'CompilerSet makeprg=' . escape(join(s:make + ['--out %:r:S.int $* %:S 2>&1']), ' \|"')
" The first line of a refusal is for scripts. The lines that quote the source and its helps belong to the message before them.
CompilerSet errorformat=%-Gbcpl:\ %.%#,%-Gok\ %.%#,%W%f:%l:%c:\ warning:\ %m,%E%f:%l:%c:\ error:\ %m,%-C\ %#%\\d%\\+\ \|%.%#,%-C\ %#\|%.%#,%C\ \ %m,%E%f:%l:%c:\ %m
