" Files that end with .job are jobs of ink_board. See ../syntax/ink_job.vim for how to install this.
autocmd BufNewFile,BufRead *.job setfiletype ink_job
