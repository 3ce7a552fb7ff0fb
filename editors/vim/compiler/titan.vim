" Vim compiler file
" Compiler: titan, which names the first rule that a program breaks: FILE:LINE:COLUMN: RULE MESSAGE

if exists('current_compiler')
  finish
endif
let current_compiler = 'titan'

CompilerSet makeprg=titan\ --mode\ check\ %:S
CompilerSet errorformat=%f:%l:%c:\ %m
