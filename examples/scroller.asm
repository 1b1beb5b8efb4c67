; A high size scroller: a big sprite enters at the right edge and moves left, four points at a time.
        OPTION SCHIP11
        HIGH
        LD V4, 112          ; column of the new sprite
        LD V5, 24
        LD V7, 6            ; so many sprites
        LD I, SHIP
AGAIN:  DRW V4, V5, 0
        LD V6, 5
MOVE:   SCL
        ADD V6, 255
        SE V6, 0
        JP MOVE
        ADD V7, 255
        SE V7, 0
        JP AGAIN
        SCD 4
        EXIT
SHIP:   DW #0180, #03c0, #07e0, #0ff0, #1ff8, #3ffc, #7ffe, #ffff
        DW #ffff, #7ffe, #3ffc, #1ff8, #0ff0, #07e0, #03c0, #0180
