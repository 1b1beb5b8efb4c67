; Puzzle: push both boxes onto the dots, in two levels. The man pushes one box at a time, and pulls none.
; Keys: 2 up, 8 down, 4 left, 6 right; 5 begins the level anew, and plays again at the end.
; A box in a corner never comes out again, so the level is lost. LEVELS has an x for each corner.
; Both profiles, --rate 10 to 15. There are 10 ticks of the delay timer from one step to the next.
; A place is a number from 0 to 47: 8 times the row, plus the column.
; V5: the man's place      V6 and V7: the places of the boxes A and B      V9: the level, 0 or 48
; V1: the place for LOOK and PUT      V4: the way of a step      V0, V2, V3, VA, VB: for work
;! V9 = 0 or V9 = 48 at TURN
;! V5 <= 47 and V6 <= 47 and V7 <= 47 at TURN
;! V5 <> V6 and V5 <> V7 and V6 <> V7 at TURN
;! V9 = 48 at WIN
;! always DEPTH <= 2
;! ever at LOST
;! can at WIN
START:  LD V9, 0
LEVEL:  CLS
        LD V1, 0            ; draw the level, place by place
SCAN:   CALL LOOK
        SNE V0, '@'
        LD V5, V1
        SNE V0, 'A'
        LD V6, V1
        SNE V0, 'B'
        LD V7, V1
        LD I, WALL
        SNE V0, '#'
        CALL PUT
        LD I, DOT
        SNE V0, '.'
        CALL PUT
        ADD V1, 1
        SE V1, 48
        JP SCAN
        LD I, MAN
        LD V1, V5
        CALL PUT
        LD I, BOX
        LD V1, V6
        CALL PUT
        LD V1, V7
        CALL PUT

TURN:   LD V0, DT           ; wait until the last step is over
        SE V0, 0
        JP TURN
        LD VA, 0
ASK:    LD I, WAYS          ; which key is down?
        ADD I, VA
        LD V1, [I]          ; V0 is a key, and V1 its way
        SKNP V0
        JP STEP
        ADD VA, 2
        SE VA, 8
        JP ASK
        LD V0, 5
        SKP V0
        JP TURN
        JP LEVEL

STEP:   LD V4, V1
        LD V0, 10
        LD DT, V0
        ADD V1, V5          ; what is at the next place?
        CALL LOOK
        SNE V0, '#'
        JP TURN             ; a wall blocks
        LD VA, V1           ; VA is that place
        SE V1, V6
        SNE V1, V7
        JP PUSH             ; a box is there, A or B
        CALL WALK
        JP TURN

PUSH:   ADD V1, V4          ; what is behind the box?
        CALL LOOK
        SNE V0, '#'
        JP TURN             ; a wall blocks
        SE V1, V6
        SNE V1, V7
        JP TURN             ; the other box blocks
        LD I, BOX
        CALL PUT            ; on
        SNE V6, VA          ; it was box A, or else box B
        LD V6, V1
        SNE V7, VA
        LD V7, V1
        LD V1, VA
        CALL PUT            ; off
        CALL WALK
        LD V1, V6           ; VB and V0 become what is under the boxes
        CALL LOOK
        LD VB, V0
        LD V1, V7
        CALL LOOK
        SE V0, 'x'
        SNE VB, 'x'
        JP STUCK            ; a corner, under A or under B
        SNE V0, VB
        SE V0, '.'
        JP TURN             ; not a dot under each
        LD V0, 40           ; the level is done: show it for 40 ticks
        LD ST, V0
        LD DT, V0
PAUSE:  LD V0, DT
        SE V0, 0
        JP PAUSE
        SNE V9, 48
        JP LAST
        LD V9, 48
        JP LEVEL
LAST:   LD I, HAPPY
        CALL FACE
WIN:    LD V0, K
        SE V0, 5
        JP WIN
        JP START
STUCK:  LD I, SAD
        CALL FACE
LOST:   LD V0, K
        SE V0, 5
        JP LOST
        JP LEVEL

LOOK:   LD I, LEVELS        ; V0 becomes the byte at the place V1
        ADD I, V9
        ADD I, V1
        LD V0, [I]
        RET
WALK:   LD I, MAN
        LD V1, V5
        CALL PUT            ; off
        ADD V5, V4
        LD V1, V5           ; on, by PUT, which follows
PUT:    LD V2, 7            ; draw the sprite at I at the place V1, or draw it again and so erase it
        AND V2, V1
        SHL V2, V2
        SHL V2, V2          ; 4 times the column
        ADD V2, 16
        LD V3, #38
        AND V3, V1
        SHR V3, V3          ; 4 times the row
        ADD V3, 4
        DRW V2, V3, 4
        RET
FACE:   LD V2, 4
        LD V3, 12
        DRW V2, V3, 8
        RET

WAYS:   DB 2, -8, 8, 8, 4, -1, 6, 1
WALL:   DB $1111...., 0, $1111...., 0   ; a row of a sprite has 8 pixels; the four at its left are the place
MAN:    DB $.1......, $111....., $1.1....., 0
BOX:    DB $111....., $1.1....., $111....., 0
DOT:    DB 0, $.1......, 0, 0
HAPPY:  DB $..1111.., $.1....1., $1.1..1.1, $1......1, $1.1..1.1, $1..11..1, $.1....1., $..1111..
SAD:    DB $..1111.., $.1....1., $1.1..1.1, $1......1, $1..11..1, $1.1..1.1, $.1....1., $..1111..
LEVELS: DA '########'       ; # wall, . dot, x corner, @ man, A and B boxes
        DA '##x  x##'
        DA '##  A ##'
        DA '##.B  ##'
        DA '##x.@x##'
        DA '########'
        DA '########'       ; the second level
        DA '#xx#x.##'
        DA '##  A .#'
        DA '##  B @#'
        DA '#x x##x#'
        DA '########'
