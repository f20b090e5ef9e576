" Vim syntax of the jobs of ink_board, files *.job.
" To install it, copy the folders syntax, ftdetect and ftplugin into ~/.vim, or write into ~/.vimrc, with the repository's path, above `syntax on`:
"     set runtimepath+=/path/to/ink_board/docs/editors/vim
" `filetype plugin on` in ~/.vimrc lets the folder ftplugin tell vim the sign of comments.
" Vim colours the first 3000 columns of a line alone, and lines of charges may be longer: `set synmaxcol=0` takes that limit away.
" It looks at one line at a time, so it doesn't tell whether what a line names is there.

if exists("b:current_syntax")
  finish
endif

syn case match
syn sync minlines=1

" Comments
syn match inkJobComment /#.*$/ contains=inkJobTodo
syn keyword inkJobTodo TODO FIXME XXX contained

" Headers of sections; another line that begins with a bracket is none
syn match inkJobNoHeader /^\s*\zs\[[^#]*/
syn match inkJobHeader /^\s*\zs\[\%(program\|sensors\|power\|image[12]\|radio\|board\)\]\ze\s*\%(#\|$\)/

" A claim, which has words of no job: it ends the text
syn region inkJobClaim matchgroup=inkJobHeader start=/^\s*\zs\[claim\]\ze\s*\%(#\|$\)/ end=/\%$/ contains=NONE

" Words within lines
syn match inkJobNumber /\%(\s\)\@<=\d\{1,10}\ze\%(\s\|#\|$\)/ contained
syn match inkJobRegister /\%(\s\)\@<=r\%(\d\|1[0-5]\)\ze\%(\s\|#\|$\)/ contained
syn match inkJobCount /\*\d\{1,10}\ze\%(\s\|#\|$\)/ contained
syn match inkJobSource /\%(^\|\s\)\@<=S\%(\d\|1[0-5]\)\ze\%(\s\|\*\|#\|$\)/ contained
syn match inkJobActor /\%(\s\)\@<=[KT]\ze\%(\s\|\*\|#\|$\)/ contained
syn match inkJobField /\%(\s\)\@<=\%(priority\|queue\|state\|log\|expires\|due\|period\|limit\)\ze\s\+\d/ contained
syn match inkJobField /\%(\s\)\@<=\%(from\|to\|thread\)\ze\s\+\a/ contained
syn match inkJobField /\%(\s\)\@<=off\ze\s*\%(#\|$\)/ contained

" Declarations
syn match inkJobDeclaration /^\s*\zs\%(thread\|source\|pipe\|timer\|task\)\ze\%(\s\|#\|$\)/ contained
syn match inkJobDeclarationLine /^\s*\%(thread\|source\|pipe\|timer\|task\)\%(\s[^#]*\)\=\ze\%(#\|$\)/ contains=inkJobDeclaration,inkJobField,inkJobNumber
syn match inkJobEnd /^\s*\zsend\ze\s*\%(#\|$\)/

" Labels and instructions
syn match inkJobLabel /^\s*\zs\a\w\{0,15}:\ze\s*\%(#\|$\)/
syn match inkJobInstruction /^\s*\zs\l\+\ze\%(\s\|#\|$\)/ contained
syn match inkJobInstructionLine /^\s*\%(li\|mov\|add\|sub\|mul\|and\|or\|xor\|shl\|shr\|divu\|remu\|ltu\|eq\|ev\|kind\|num\|now\|ld\|st\|out\)\%(\s[^#]*\)\=\ze\%(#\|$\)/ contains=inkJobInstruction,inkJobRegister,inkJobNumber
syn match inkJobInstructionLine /^\s*\%(jmp\|jz\|jnz\|send\|arm\|stop\|next\|done\)\%(\s[^#]*\)\=\ze\%(#\|$\)/ contains=inkJobInstruction,inkJobRegister

" The words of an image
syn match inkJobWord /\%(^\|\s\)\@<=\x\{16}\ze\%(\s\|#\|$\)/

" The events of a script
syn match inkJobEvent /^\s*\zs\l\+\ze\%(\s\|#\|$\)/ contained
syn match inkJobEventLine /^\s*\%(grow\|tobase\|tonode\)\s\+\d[^#]*\ze\%(#\|$\)/ contains=inkJobEvent,inkJobNumber
syn match inkJobEventLine /^\s*\%(send\|rewind\|nodecut\|save\|basecut\)\ze\s*\%(#\|$\)/ contains=inkJobEvent

" Readings and charges
syn match inkJobReadings /^\s*S\d\+\%(\s[^#]*\)\=\ze\%(#\|$\)/ contains=inkJobSource,inkJobNumber
syn match inkJobCharge /^\s*\zscharge\ze\%(\s\|#\|$\)/ contained
syn match inkJobChargeLine /^\s*charge\%(\s[^#]*\)\=\ze\%(#\|$\)/ contains=inkJobCharge,inkJobActor,inkJobSource,inkJobCount,inkJobNumber

hi def link inkJobComment Comment
hi def link inkJobTodo Todo
hi def link inkJobHeader PreProc
hi def link inkJobNoHeader Error
hi def link inkJobDeclaration Keyword
hi def link inkJobField Type
hi def link inkJobEnd Keyword
hi def link inkJobLabel Label
hi def link inkJobInstruction Statement
hi def link inkJobRegister Identifier
hi def link inkJobNumber Number
hi def link inkJobCount Number
hi def link inkJobWord Number
hi def link inkJobSource Special
hi def link inkJobActor Special
hi def link inkJobCharge Keyword
hi def link inkJobEvent Keyword
hi def link inkJobClaim String

let b:current_syntax = "ink_job"
