" Vim's own filetype.vim takes *.task for another program's files, and setfiletype would leave that as it is.
autocmd BufRead,BufNewFile *.task,*.task.in set filetype=pse52
