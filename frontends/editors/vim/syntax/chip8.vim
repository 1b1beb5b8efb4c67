" CHIP-8 and SUPER-CHIP sources; made by frontends/editors/generate.py.
if exists("b:current_syntax")
  finish
endif
syntax case ignore
syntax keyword chip8Instruction SCD CLS RET SCR SCL EXIT LOW HIGH JP CALL SE SNE LD ADD OR AND XOR SUB SHR SUBN SHL RND DRW SKP SKNP SYS
syntax keyword chip8Directive EQU ORG ALIGN DB DW DA DS IFDEF IFUND ELSE ENDIF END OPTION USED XREF DEFINE INCLUDE UNDEF
syntax keyword chip8Switch BINARY CHIP8 CHIP48 SCHIP10 SCHIP11 ON OFF
syntax keyword chip8Register V0 V1 V2 V3 V4 V5 V6 V7 V8 V9 VA VB VC VD VE VF I DT ST K F HF B R
syntax match chip8Number /\<\d\+\>\|#\x\+\>\|@\o\+\>\|\$[01.]\+/
syntax match chip8Label /^\s*\h\w*\s*:/
syntax region chip8Text start=/'/ end=/'/ oneline
syntax region chip8Text start=/"/ end=/"/ oneline
syntax match chip8Comment /;.*$/
syntax match chip8Property /^\s*;!.*$/ contains=chip8PropertyWord,chip8PropertyItem,chip8Number
syntax match chip8PropertyWord /\c\<\%(always\|never\|ever\|can\|here\|at\|and\|or\)\>/ contained
syntax match chip8PropertyItem /\c\<\%(V\x\|I\|PC\|DT\|DEPTH\|HIGH\|KEYS\|PIXEL\)\>/ contained
highlight default link chip8Instruction Statement
highlight default link chip8Directive PreProc
highlight default link chip8Switch Constant
highlight default link chip8Register Identifier
highlight default link chip8Number Number
highlight default link chip8Label Label
highlight default link chip8Text String
highlight default link chip8Comment Comment
highlight default link chip8Property SpecialComment
highlight default link chip8PropertyWord Statement
highlight default link chip8PropertyItem Identifier
let b:current_syntax = "chip8"
