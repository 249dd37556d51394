" Vim settings for scripts of pse52: comments, indentation, and :make, which lists all faults of the script.
if exists('b:did_ftplugin')
  finish
endif
let b:did_ftplugin = 1

setlocal commentstring=#\ %s comments=:#
setlocal expandtab shiftwidth=4 softtabstop=4
compiler pse52

let b:match_words = '\<\%(thread\|handler\|cleanup\|if\|unless\|loop\|forever\)\>:\<end\>,\<push\>:\<pop\>'
let b:undo_ftplugin = 'setlocal commentstring< comments< expandtab< shiftwidth< softtabstop< makeprg< errorformat< | unlet! b:match_words'
