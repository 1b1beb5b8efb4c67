; A walk along eight fields, with a trap on field 5: each time the player comes there, he loses a life.
; Keys: 4 left, 6 right. V0: his field, from 0 at the left end      V1: his lives
; The lines that begin with ;! state what always holds, that a player can lose, and that none gets stuck:
;     chipbench prove examples/road.asm
; docs/GUIDE.md has this game with a fault that prove finds. All profiles.
;! always V0 <= 7
;! V1 <= 3 at LOOP
;! ever at OVER
;! can V0 = 7 or PC = OVER
        LD V1, 3
LOOP:   LD V2, K
        SE V2, 4
        JP RIGHT
        SE V0, 0            ; at the left end he stays
        ADD V0, 255
RIGHT:  SE V2, 6
        JP TRAP
        SE V0, 7            ; and so at the right one
        ADD V0, 1
TRAP:   SNE V0, 5
        ADD V1, 255
;! V1 < 3 or V0 <> 5 here
        SE V1, 0
        JP LOOP
OVER:   JP OVER
