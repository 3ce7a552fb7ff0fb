" Vim syntax file
" Language: Titanium's integer core, as titan compiles it

if exists('b:current_syntax')
  finish
endif
syn case match

" tools/editors.py: begin
syn iskeyword 48-57,65-90,97-122,36,95
syn keyword titanControl break continue else for foreach if return while
syn keyword titanDeclaration class
syn keyword titanModifier final private protected public static
syn keyword titanQualifier local single
syn keyword titanType boolean Domain int long Point RectDomain SharedRegion String void
syn keyword titanOperation broadcast new
syn keyword titanLiteral false null true
syn keyword titanReceiver this
syn keyword titanLibrary println System Ti
syn match titanMethod "\v<[A-Za-z$_][A-Za-z0-9$_]*(\_s*\()@="
syn match titanClassName "\v(<class\_s+)@<=[A-Za-z$_][A-Za-z0-9$_]*"
syn match titanMember "\v(\.\_s*)@<=(contains|copy|delete|domain|exchange|max|min|restrict|size|slice|translate)>(\_s*\()@="
syn match titanLibrary "\v(<Ti\_s*\.\_s*)@<=(barrier|numProcs|thisProc)>"
syn match titanLibrary "\v(<System\_s*\.\_s*)@<=(out)>"
syn match titanPlace "\v(<foreach\_s*\(\_s*[A-Za-z$_][A-Za-z0-9$_]*\_s+)@<=(in)>"
syn match titanPlace "\v(<broadcast\_s+)@<!(<broadcast>\_[^;]*([A-Za-z0-9$_]\_s+|[)\]]\_s*))@<=(from)>"
syn match titanNumber "\v<\d+[Ll]?"
syn match titanError "\v<0\d+[Ll]?"
syn match titanDimension "\v<[1-3]d>"
syn match titanError "[#'?@\\`]\|[^\x00-\x7f]"
syn match titanWrongEscape contained +\\.+
syn match titanEscape contained +\\[nt"\\]+
" tools/editors.py: end

syn region titanString start=+"+ skip=+\\.+ end=+"+ end=+$+ keepend contains=titanEscape,titanWrongEscape
syn match titanComment "//.*" contains=titanTodo,@Spell
syn region titanComment start="/\*" end="\*/" contains=titanTodo,@Spell
syn keyword titanTodo contained TODO FIXME XXX
syn sync fromstart

hi def link titanControl Statement
hi def link titanDeclaration Structure
hi def link titanModifier StorageClass
hi def link titanQualifier StorageClass
hi def link titanType Type
hi def link titanOperation Operator
hi def link titanPlace Operator
hi def link titanLiteral Constant
hi def link titanReceiver Identifier
hi def link titanLibrary Special
hi def link titanMember Special
hi def link titanMethod Function
hi def link titanClassName Typedef
hi def link titanNumber Number
hi def link titanDimension Type
hi def link titanString String
hi def link titanEscape SpecialChar
hi def link titanComment Comment
hi def link titanTodo Todo
hi def link titanError Error
hi def link titanWrongEscape Error

let b:current_syntax = 'titan'
