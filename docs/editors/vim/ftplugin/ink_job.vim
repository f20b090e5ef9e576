" Vim settings of the jobs of ink_board, files *.job: the sign of comments. See ../syntax/ink_job.vim for how to install this.

if exists("b:did_ftplugin")
  finish
endif
let b:did_ftplugin = 1

setlocal comments=:# commentstring=#\ %s
let b:undo_ftplugin = "setlocal comments< commentstring<"
