" :make checks a CHIP-8 source, and the quickfix list has its faults and warnings.
if exists('current_compiler')
  finish
endif
let current_compiler = 'chipbench'

let s:kept = &cpoptions
set cpoptions&vim

" arguments of :make are options of check, as in `:make --profile=vip`
CompilerSet makeprg=chipbench\ check\ --color=never\ $*\ %:S
" below a fault are its line, a mark and help
CompilerSet errorformat=%f:%l:%c:\ %m,%-G%.%#

let &cpoptions = s:kept
unlet s:kept
