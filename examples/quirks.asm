; Finds out the quirks of the machine that runs it, and shows each as a digit, and below them the profile that has them.
;   shift 0 of Vx, 1 of Vy     memory 0 I stays, 1 I + x, 2 I + x + 1    jump 0 by Vx, 1 by V0    logic 0 VF stays, 1 is 0
;   edges 0 clip, 1 wrap       dxy0 0 nothing, 1 8 by 16, 2 16 by 16     fx1e 0 VF stays, 1 is set
;   size 0 keeps, 1 clears     scroll 0 stored pixels, 1 whole ones      instructions 0 those of SUPER-CHIP, 1 none of them
; The profiles are 0 schip, 1 vip, 2 chip48, 3 schip10, 4 schip-modern, 5 octo, and F another mixture. The program ends at
; EXIT, or at the first instruction of SUPER-CHIP where the machine has none.
        LD V0, 2            ; shift
        LD V1, 4
        SHR V0, V1
        ADD V0, 255         ; 1 or 2
        LD I, FOUND
        LD [I], V0

        LD I, STEPS         ; memory
        LD V1, [I]
        LD V0, [I]
        LD I, FOUND + 1
        LD [I], V0

        LD V0, 2            ; jump: the address begins with 2
        LD V2, 0
        LD V3, 0
        JP V0, TABLE
TABLE:  JP JUMPED
        LD V3, 1
JUMPED: LD V0, V3
        LD I, FOUND + 2
        LD [I], V0

        LD VF, 1            ; logic
        OR V0, V1
        LD V0, 0
        SE VF, 1
        LD V0, 1
        LD I, FOUND + 3
        LD [I], V0

        CLS                 ; edges: a line at the right edge, and one at the left
        LD V3, 60
        LD V4, 0
        LD I, LINE
        DRW V3, V4, 1
        LD V3, 0
        DRW V3, V4, 1
        LD V0, VF
        LD I, FOUND + 4
        LD [I], V0

        CLS                 ; dxy0: the box, and dots in its left and in its right half
        LD I, BOX
        DRW V3, V4, 0
        LD I, DOT
        DRW V3, V4, 1
        LD V0, VF
        LD V3, 8
        DRW V3, V4, 1
        ADD V0, VF
        LD I, FOUND + 5
        LD [I], V0

        LD I, #FFF          ; fx1e
        LD V0, 1
        LD VF, 5
        ADD I, V0
        SNE VF, 5
        LD V0, 0
        LD I, FOUND + 6
        LD [I], V0

        CALL SHOW
        LOW                 ; a machine without this instruction ends here

        LD V0, 0            ; instructions
        LD I, FOUND + 9
        LD [I], V0

        CLS                 ; size: a line before it, and one after it
        LD V3, 0
        LD I, LINE
        DRW V3, V4, 1
        LOW
        DRW V3, V4, 1
        LD V0, 1
        LD V1, VF
        SUB V0, V1
        LD I, FOUND + 7
        LD [I], V0

        CLS                 ; scroll: where is a dot after it?
        LD I, DOT
        DRW V3, V4, 1
        SCR
        LD V3, 4
        DRW V3, V4, 1
        LD V0, VF
        LD I, FOUND + 8
        LD [I], V0

        CALL SHOW
        EXIT

SHOW:   CLS                 ; shows the digits and the profile
        LD V5, 0
        LD V6, 2
        LD V7, 4
DIGIT:  LD I, FOUND
        ADD I, V5
        LD V0, [I]
        LD F, V0
        DRW V6, V7, 5
        ADD V6, 6
        ADD V5, 1
        SE V5, 10
        JP DIGIT

        LD V8, 0            ; V8 counts the profiles, V9 their digits
        LD V9, 0
NEXT:   LD V5, 0
        LD VA, 0
DIFFER: LD I, FOUND
        ADD I, V5
        LD V0, [I]
        LD V1, V0
        LD I, KNOWN
        ADD I, V9
        LD V0, [I]
        SE V0, V1
        LD VA, 1
        ADD V9, 1
        ADD V5, 1
        SE V5, 10
        JP DIFFER
        SNE VA, 0
        JP NAME
        ADD V8, 1
        SE V8, 6
        JP NEXT
        LD V8, #F
NAME:   LD V6, 30
        LD V7, 14
        LD F, V8
        DRW V6, V7, 5
        RET

FOUND:  DB 0, 0, 0, 0, 0, 0, 0, 0, 0, 1
STEPS:  DB 0, 1, 2
LINE:   DB #FF
DOT:    DB #80
KNOWN:  DB 0, 0, 0, 0, 0, 1, 0, 0, 0, 0
        DB 1, 2, 1, 1, 0, 0, 0, 0, 0, 1
        DB 0, 1, 0, 0, 0, 0, 0, 0, 0, 1
        DB 0, 1, 0, 0, 0, 1, 0, 0, 0, 0
        DB 0, 0, 0, 0, 0, 2, 0, 1, 1, 0
        DB 1, 2, 1, 0, 1, 2, 0, 1, 1, 0
BOX:    DB #FF, #FF, #FF, #FF, #FF, #FF, #FF, #FF, #FF, #FF, #FF, #FF, #FF, #FF, #FF, #FF
        DB #FF, #FF, #FF, #FF, #FF, #FF, #FF, #FF, #FF, #FF, #FF, #FF, #FF, #FF, #FF, #FF
