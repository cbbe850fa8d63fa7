" `:make` checks the file of the buffer by editors/twe-lines, which says why it is refused. To run the text in place of that:
" `setlocal makeprg=twe-lines\ run\ %:S`.
if exists('current_compiler')
  finish
endif
let current_compiler = 'twe'

CompilerSet makeprg=twe-lines\ check\ %:S
" The name of the file and a place, then what is said of it; or the name and `stuck: 1 waits 2, 2 held by 1`, which has no place.
" Other lines are no errors.
CompilerSet errorformat=%f:%l:%c:\ %m,%f:\ %\\%%(stuck%\\)%\\@=%m,%-G%.%#
