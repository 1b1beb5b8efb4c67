;;; chip8-words.el --- words of CHIP-8 sources; made by frontends/editors/generate.py  -*- lexical-binding: t -*-

;;; Code:

(defconst chip8-mnemonics
  '("SCD" "CLS" "RET" "SCR" "SCL" "EXIT" "LOW" "HIGH" "JP" "CALL"
    "SE" "SNE" "LD" "ADD" "OR" "AND" "XOR" "SUB" "SHR" "SUBN"
    "SHL" "RND" "DRW" "SKP" "SKNP" "SYS")
  "Names of instructions.")

(defconst chip8-directives
  '("EQU" "ORG" "ALIGN" "DB" "DW" "DA" "DS" "IFDEF" "IFUND" "ELSE"
    "ENDIF" "END" "OPTION" "USED" "XREF" "DEFINE" "INCLUDE" "UNDEF")
  "Names of directives.")

(defconst chip8-switches
  '("BINARY" "CHIP8" "CHIP48" "SCHIP10" "SCHIP11" "ON" "OFF")
  "Words of OPTION and ALIGN.")

(defconst chip8-parts
  '("I" "DT" "ST" "K" "F" "HF" "B" "R")
  "Words that name a part of the machine.")

(provide 'chip8-words)
;;; chip8-words.el ends here
