" Compares what Vim highlights in a program with a file that has a letter for each of its bytes.
"
"   vim -N -u NONE -i NONE -n -es -S editors/vim/test.vim PROGRAM CLASSES
"
" Each difference is written to standard output; the exit status is 1 where there is one.

let s:groups = {' ': '', '.': '', 'c': 'titanControl', 'd': 'titanDeclaration', 'm': 'titanModifier',
  \ 'q': 'titanQualifier', 't': 'titanType', 'o': 'titanOperation', 'p': 'titanPlace',
  \ 'l': 'titanLiteral', 'r': 'titanReceiver', 'b': 'titanLibrary', 'f': 'titanMember',
  \ 'M': 'titanMethod', 'C': 'titanClassName', 'n': 'titanNumber', 'D': 'titanDimension',
  \ 's': 'titanString', 'e': 'titanEscape', 'k': 'titanComment', '!': 'titanError',
  \ 'w': 'titanWrongEscape'}
let s:classes = readfile(argv(1))
let s:found = []

let &runtimepath = expand('<sfile>:p:h') . ',' . &runtimepath
filetype plugin on
syntax on
edit

if &filetype !=# 'titan' || &makeprg !~# '^titan ' || line('$') != len(s:classes)
  call add(s:found, 'no program, or another number of lines')
endif
for s:line in range(1, line('$'))
  for s:column in range(1, col([s:line, '$']) - 1)
    let s:name = synIDattr(synID(s:line, s:column, 0), 'name')
    let s:wanted = get(s:groups, s:classes[s:line - 1][s:column - 1], 'a letter')
    if s:name !=# s:wanted && getline(s:line)[s:column - 1] !=# ' '
      call add(s:found, s:line . ':' . s:column . ': ' . s:name . ' for ' . s:wanted)
    endif
  endfor
endfor

" the message of a refused program, as the list of errors has it
let s:message = 'dir/a.ti:3:7: S1 an if with global effects needs a single condition'
let s:error = getqflist({'lines': [s:message], 'efm': &errorformat}).items[0]
if [bufname(s:error.bufnr), s:error.lnum, s:error.col, s:error.text[:2]] !=# ['dir/a.ti', 3, 7, 'S1 ']
  call add(s:found, 'errorformat: ' . string(s:error))
endif

if empty(s:found)
  qall!
endif
enew
call setline(1, s:found)
%print
cquit 1
