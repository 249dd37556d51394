" :make lists all faults of a script: `pse52 explain --lines` tells each in a line, FILE:LINE:COLUMN: KIND: what is wrong; how to fix it.
if exists('current_compiler')
  finish
endif
let current_compiler = 'pse52'

CompilerSet makeprg=pse52\ explain\ --lines\ %:S
CompilerSet errorformat=%f:%l:%c:\ %m,%f:%l:\ %m
