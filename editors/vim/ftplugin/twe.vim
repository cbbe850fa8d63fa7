" Settings for texts of twe. `:make` checks the text, and `:cc` goes to its refusal. `:TweFormat` writes the text in its layout, and
" each save does so before if g:twe_format_on_save is 1. A text that has no tree stays as it is.
if exists('b:did_ftplugin')
  finish
endif
let b:did_ftplugin = 1

setlocal commentstring=//\ %s
setlocal comments=s1:/*,mb:*,ex:*/,://
setlocal shiftwidth=2 softtabstop=2 expandtab
compiler twe

if !exists('*s:Format')
  function s:Format() abort
    let l:text = getline(1, '$')
    let l:laid = systemlist('twe_format', l:text)
    if v:shell_error != 0
      echo 'twe_format: ' . get(l:laid, 0, 'no answer')
    elseif l:laid != l:text
      let l:view = winsaveview()
      call setline(1, l:laid)
      if line('$') > max([len(l:laid), 1])
        silent execute (max([len(l:laid), 1]) + 1) . ',$delete _'
      endif
      call winrestview(l:view)
    endif
  endfunction
endif

command! -buffer TweFormat call s:Format()
augroup twe_format
  autocmd! BufWritePre <buffer>
  autocmd BufWritePre <buffer> if get(g:, 'twe_format_on_save', 0) | call s:Format() | endif
augroup END

let b:undo_ftplugin = 'setlocal commentstring< comments< shiftwidth< softtabstop< expandtab< makeprg< errorformat<'
    \ . ' | delcommand -buffer TweFormat | execute "autocmd! twe_format BufWritePre <buffer>"'
