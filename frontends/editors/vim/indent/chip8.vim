" The columns of CHIP-8 sources: labels and definitions at the edge, statements in the ninth column.
if exists('b:did_indent')
  finish
endif
let b:did_indent = 1

setlocal indentexpr=Chip8Indent(v:lnum)
setlocal indentkeys=o,O,*<Return>,!^F,:,=
setlocal nolisp nosmartindent

let b:undo_indent = 'setlocal indentexpr< indentkeys<'

if exists('*Chip8Indent')
  finish
endif

function! Chip8Indent(number) abort
  let line = getline(a:number)
  if line =~? '^\s*\h\w*\s*\(:\|=\|EQU\>\)'
    return 0
  endif
  if line =~ '^\s*;'
    return indent(a:number)
  endif
  let before = prevnonblank(a:number - 1)
  " a comment at the edge goes on at the edge
  if line =~ '^\s*$' && before > 0 && getline(before) =~ '^;'
    return 0
  endif
  return 8
endfunction
