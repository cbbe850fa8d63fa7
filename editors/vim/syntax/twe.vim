" The tokens of texts of twe, with tasks, regions and cells apart. checks/extras compares them with those of the lexer.
if exists('b:current_syntax')
  finish
endif
syntax case match

" Where two items match at one place, Vim takes the later one. So what is special stands below what is general. Keywords
" are matches, and not `syntax keyword`, since in `1if` a keyword stands directly behind a number.
syntax match tweStray /[^ \t\r]/
syntax match tweIdentifier /[A-Za-z_][A-Za-z0-9_]*/
" A cell is declared before `in`, and one of an array stands before its index. A cell of its own looks like a local.
syntax match tweCell /[A-Za-z_][A-Za-z0-9_]*[A-Za-z0-9_]\@!\ze\%(\s*\[\|\s\+in[A-Za-z0-9_]\@!\)/
syntax match tweTask /[A-Za-z_][A-Za-z0-9_]*[A-Za-z0-9_]\@!\ze\s*\.\s*\%(spawn\|executeLater\)[A-Za-z0-9_]\@!/
syntax match tweNumber /[0-9]\+/
syntax match tweDelimiter /[{}()[\];,:.?]/
syntax match tweOperator /[=<>+\-*\/%!]/
syntax match tweOperator /==\|!=\|<=\|>=\|&&\|||/

" In effects and after `in`, names are regions, and an index may be a parameter; after `task` a name is a task.
syntax match tweRegion /[A-Za-z_][A-Za-z0-9_]*/ contained
syntax match tweParameter /\[\@1<=[A-Za-z_][A-Za-z0-9_]*/ contained
syntax match tweTaskName /[A-Za-z_][A-Za-z0-9_]*/ contained

syntax match tweDeclaration /\%(region\|task\|future\)[A-Za-z0-9_]\@!/
syntax match tweModifier /\%(deterministic\|final\)[A-Za-z0-9_]\@!/
syntax match tweType /\%(int\|boolean\|void\)[A-Za-z0-9_]\@!/
syntax match tweEffect /\%(reads\|writes\|pure\|in\|Root\)[A-Za-z0-9_]\@!/
syntax match tweControl /\%(if\|else\|while\|return\)[A-Za-z0-9_]\@!/
syntax match tweOperation /\%(spawn\|executeLater\|getValue\|join\|print\)[A-Za-z0-9_]\@!/
syntax match tweBoolean /\%(true\|false\)[A-Za-z0-9_]\@!/

" Each ends before what follows it, and at the latest with its line.
syntax region tweRegions matchgroup=tweDeclaration start=/region[A-Za-z0-9_]\@!/ end=/\ze[;{}]/ end=/$/
  \ contains=ALLBUT,tweIdentifier,tweCell,tweTask,tweTaskName,tweParameter
syntax region tweEffects matchgroup=tweEffect start=/\%(reads\|writes\|in\)[A-Za-z0-9_]\@!/ end=/\ze[;={}]/ end=/$/
  \ contains=ALLBUT,tweIdentifier,tweCell,tweTask,tweTaskName
syntax region tweTaskHead matchgroup=tweDeclaration start=/task[A-Za-z0-9_]\@!/ end=/\ze[(;{}]/ end=/$/
  \ contains=ALLBUT,tweIdentifier,tweCell,tweTask,tweRegion,tweParameter

syntax match tweComment /\/\/.*/
syntax region tweComment start=/\/\*/ end=/\*\//

highlight default link tweStray Error
highlight default link tweIdentifier Normal
highlight default link tweCell Identifier
highlight default link tweTask Function
highlight default link tweTaskName Function
highlight default link tweRegion Special
highlight default link tweParameter Normal
highlight default link tweNumber Number
highlight default link tweDelimiter Delimiter
highlight default link tweOperator Operator
highlight default link tweDeclaration Structure
highlight default link tweModifier StorageClass
highlight default link tweType Type
highlight default link tweEffect Keyword
highlight default link tweControl Statement
highlight default link tweOperation PreProc
highlight default link tweBoolean Boolean
highlight default link tweComment Comment

syntax sync fromstart
let b:current_syntax = 'twe'
