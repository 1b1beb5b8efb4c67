; Tells the two profiles apart: schip (SUPER-CHIP 1.1) and vip (COSMAC VIP).
; Each test leaves 0 in a register of its own where the machine has the way of schip, and 1 where it has that of vip.
; The six digits are then shown in a row, and schip alone shows a box of 16 rows at their left.
        LD V0, 2            ; shift: of Vx by itself, or of Vy?
        LD V1, 4
        SHR V0, V1
        LD V8, 0
        SE V0, 1
        LD V8, 1

        LD I, BYTES         ; load: does I stay, or move on?
        LD V0, [I]
        LD V0, [I]
        LD V9, V0

        LD I, ROOM          ; store: likewise
        LD V0, 1
        LD [I], V0
        LD V0, 0
        LD [I], V0
        LD I, ROOM
        LD V0, [I]
        LD VA, V0

        LD V0, 2            ; jump: by V2, since the address begins with 2, or by V0?
        LD V2, 0
        LD VB, 0
        JP V0, TABLE
TABLE:  JP LOGIC
        LD VB, 1

LOGIC:  LD VF, 1            ; logic: does VF stay, or become 0?
        OR V0, V1
        LD VC, 0
        SE VF, 1
        LD VC, 1

        LD I, BOX           ; sixteen rows: drawn, or nothing at all?
        LD V4, 2
        LD V5, 8
        DRW V4, V5, 0
        DRW V4, V5, 0
        LD VD, 0
        SE VF, 1
        LD VD, 1
        DRW V4, V5, 0

        LD V6, 16           ; the results
        LD V7, 13
        LD F, V8
        CALL SHOW
        LD F, V9
        CALL SHOW
        LD F, VA
        CALL SHOW
        LD F, VB
        CALL SHOW
        LD F, VC
        CALL SHOW
        LD F, VD
        CALL SHOW
        EXIT                ; S1 under schip; under vip this is not an instruction, S2

SHOW:   DRW V6, V7, 5
        ADD V6, 6
        RET

BYTES:  DB 0, 1
ROOM:   DS 2
BOX:    DB #FF, #81, #81, #81, #81, #81, #81, #81
        DB #81, #81, #81, #81, #81, #81, #81, #FF
