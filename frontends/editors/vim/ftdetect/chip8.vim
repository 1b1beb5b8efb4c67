" CHIP-8 and SUPER-CHIP sources: *.ch8asm, and *.asm that look like one.

" Lines that no other assembler has.
let s:looks = '\v\c^\s*(\h\w*\s*:)?\s*(DRW\s+V\x|SKN?P\s+V\x|RND\s+V\x|SN?E\s+V\x|LD\s+(V\x|DT|ST|HF|\[I\])\s*,'
  \ . '|OPTION\s+(BINARY|CHIP8|CHIP48|SCHIP1[01]))'

function! s:Detect() abort
  for line in getline(1, 200)
    if line =~# s:looks
      set filetype=chip8
      return
    endif
  endfor
endfunction

augroup chip8_detect
  autocmd!
  autocmd BufNewFile,BufRead *.ch8asm set filetype=chip8
  autocmd BufNewFile,BufRead *.asm call s:Detect()
augroup END
