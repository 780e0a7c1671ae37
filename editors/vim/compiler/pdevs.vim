" `:compiler pdevs` and then `:make` check the model of the buffer, and go to the place that is refused.
if exists("current_compiler")
  finish
endif
let current_compiler = "pdevs"

CompilerSet makeprg=pdevs\ check\ --explain\ %:S
" Of what is printed only the line with the place counts: FILE:LINE:COLUMN: E7: unknown name `m`; `n` is near
CompilerSet errorformat=%f:%l:%c:\ %m,%-G%.%#
