; A ball of four points bounces inside the low screen.
; V0 and V1 are its place, V2 and V3 its way: 1 or 255, which is -1.
        LD V0, 10
        LD V1, 4
        LD V2, 1
        LD V3, 1
        LD I, BALL
        DRW V0, V1, 2
NEXT:   DRW V0, V1, 2       ; off
        ADD V0, V2
        ADD V1, V3
        DRW V0, V1, 2       ; on
        SE V0, 62           ; right edge
        JP LEFT
        LD V2, 255
LEFT:   SE V0, 0
        JP FLOOR
        LD V2, 1
FLOOR:  SE V1, 30           ; lower edge
        JP TOP
        LD V3, 255
TOP:    SE V1, 0
        JP NEXT
        LD V3, 1
        JP NEXT

BALL:   DB $11......, $11......
