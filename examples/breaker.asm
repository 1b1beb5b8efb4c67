; Breaker: knock out the 16 bricks with the ball, and don't let it fall past the paddle.
; Keys: 5 serves the ball, 4 and 6 move the paddle; at the end 5 plays again.
; The left half of the paddle sends the ball to the left, the right half to the right.
; Both profiles, --rate 10 to 15. A turn is 3 ticks of the delay timer.
; V3 and V4: the ball's column and row      V5 and V6: its way, 1 or 255, which is -1
; V7: the paddle's column      V8: the score      V9: the lives      V0 to V2, VB, VC: for work
;! always V9 <= LIVES
;! always V8 <= BRICKS
;! V9 = 0 and V8 < BRICKS at OVER
;! V9 >= 1 and V8 = BRICKS at WIN
;! V3 <= 63 and V4 >= TOP and V4 <= 30 at TURN
;! V5 = 1 or V5 = 255 at TURN
;! V7 <= 56 and VA = 31 at TURN
;! always DEPTH <= 1
LIVES   EQU 3
BRICKS  EQU 16              ; two rows of eight
TOP     EQU 7               ; the ball's uppermost row

START:  CLS
        LD V7, 28
        LD V8, 0
        LD V9, LIVES
        LD V0, 0            ; draw the ceiling and the bricks, 8 columns at once
PART:   LD V1, TOP - 1
        LD I, LINE
        DRW V0, V1, 1
        LD I, BRICK
        LD V1, 8
        DRW V0, V1, 3
        LD V1, 12
        DRW V0, V1, 3
        ADD V0, 8
        SE V0, 64
        JP PART
        LD VA, 31           ; draw the paddle in row 31
        LD I, LINE
        DRW V7, VA, 1
        CALL SCORE
        CALL LIFE

SERVE:  LD V3, V7           ; the ball is on the paddle
        ADD V3, 3
        LD V4, 30
        LD I, BALL
        DRW V3, V4, 1
READY:  LD V0, K
        SE V0, 5
        JP READY
        LD V5, 1            ; to the right, and up
        LD V6, -1

TURN:   LD V0, DT           ; wait until the last turn is over
        SE V0, 0
        JP TURN
        LD V0, 3
        LD DT, V0
        LD V1, V7           ; V1 is where the paddle goes
        LD V0, 4
        SKNP V0
        ADD V1, -2
        LD V0, 6
        SKNP V0
        ADD V1, 2
        SE V1, 58           ; past an edge: it stays
        SNE V1, -2
        LD V1, V7
        LD I, LINE
        DRW V7, VA, 1       ; off: drawn again, a sprite vanishes
        LD V7, V1
        DRW V7, VA, 1       ; on
        SNE V3, 0           ; the ball turns round at the sides and at the ceiling
        LD V5, 1
        SNE V3, 63
        LD V5, -1
        SNE V4, TOP
        LD V6, 1
        LD I, BALL
        DRW V3, V4, 1       ; off
        ADD V3, V5
        ADD V4, V6
        DRW V3, V4, 1       ; on; VF is 1 if it meets something
        SNE V4, 31
        JP FLOOR
        SE VF, 1
        JP TURN
        DRW V3, V4, 1       ; it meets a brick: off
        LD V0, #F8          ; the brick's column and row are those of the ball,
        AND V0, V3          ; rounded down to a multiple of 8 and of 4
        LD V1, #FC
        AND V1, V4
        LD I, BRICK
        DRW V0, V1, 3       ; off
        LD I, BALL
        DRW V3, V4, 1       ; on
        LD V0, 1 ^ 255      ; up becomes down, and down becomes up
        XOR V6, V0
        LD V0, 4
        LD ST, V0
        CALL SCORE          ; off
        ADD V8, 1
        CALL SCORE          ; on
        SE V8, BRICKS
        JP TURN
        LD I, WON
        CALL WORD
WIN:    LD V0, K
        SE V0, 5
        JP WIN
        JP START

FLOOR:  SE VF, 1            ; it meets the paddle
        JP MISS
        DRW V3, V4, 1       ; off
        LD V4, 30
        LD V6, -1
        DRW V3, V4, 1       ; on
        LD V0, V3           ; which half of the paddle?
        SUB V0, V7
        LD V1, 4
        LD ST, V1
        LD V5, -1
        SUB V0, V1          ; VF is 1 if V0 is at least 4
        SE VF, 0
        LD V5, 1
        JP TURN
MISS:   DRW V3, V4, 1       ; off
        LD ST, V4           ; 31 ticks of sound
        CALL LIFE           ; off
        ADD V9, -1
        CALL LIFE           ; on
        SE V9, 0
        JP SERVE
        LD I, GONE
        CALL WORD
OVER:   LD V0, K
        SE V0, 5
        JP OVER
        JP START

SCORE:  LD I, DIGITS        ; draw the score, or draw it again and so erase it
        LD B, V8
        LD V2, [I]          ; V0 to V2 are the hundreds, the tens and the ones
        LD VB, 1
        LD VC, 0
        LD F, V1
        DRW VB, VC, 5
        ADD VB, 5
        LD F, V2
        DRW VB, VC, 5
        RET
LIFE:   LD F, V9            ; likewise the lives
        LD VB, 59
        LD VC, 0
        DRW VB, VC, 5
        RET
WORD:   LD V0, 24           ; draw two sprites of five rows, from I on
        LD V1, 20
        LD V2, 5
        DRW V0, V1, 5
        ADD V0, 8
        ADD I, V2
        DRW V0, V1, 5
        RET

LINE:   DB $11111111
BALL:   DB $1.......
BRICK:  DB $1111111., $1111111., $1111111.
WON:    DB $1...1.1., $1...1.1., $1.1.1.1., $1.1.1.1., $.1.1..1., $1..1...., $11.1...., $1.11...., $1..1...., $1..1....
GONE:   DB $111.1.1., $1.1.1.1., $1.1.1.1., $1.1.1.1., $111..1.., $111.111., $1...1.1., $111.11.., $1...1.1., $111.1.1.
DIGITS: DS 3
