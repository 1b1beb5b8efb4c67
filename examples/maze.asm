; Maze: fetch the key, and leave by the door before the bar at the bottom is gone.
; Keys: 5 starts, 2 up, 8 down, 4 left, 6 right; at the end 5 plays again.
; Both profiles, --rate 10 to 15. A turn is 8 ticks of the delay timer.
; V5 and V6: the player's column and row on the screen      V7: his place in MAP
; V8: the time left, in turns      V9: 1 once he has the key, 0 before      V0 to V4: for work
;! always V8 <= TIME
;! always V9 <= 1
;! V5 <= DOORX and V6 <= 21 and V7 < (WIDE * 9) at TURN
;! V9 = 1 and V5 = DOORX and V6 = DOORY and V8 > 0 at WIN
;! V8 = 0 at LOST
;! can at LOST
;! always DEPTH <= 1
WIDE    EQU 21              ; cells in a row of MAP; a cell is 3 by 3 pixels
DOORX   EQU 20 * 3          ; the door's column and row on the screen
DOORY   EQU 5 * 3
TIME    EQU 128             ; turns, two for each column of the bar

START:  CLS
        LD V5, 0            ; draw MAP, cell by cell
        LD V6, 0
        LD V7, 0
CELL:   LD I, MAP
        ADD I, V7
        LD V0, [I]
        SNE V0, ' '
        JP NEXT
        LD I, WALL
        SNE V0, 'K'
        LD I, KEY
        SNE V0, 'D'
        LD I, DOOR
        DRW V5, V6, 3
NEXT:   ADD V7, 1
        ADD V5, 3
        SE V5, WIDE * 3
        JP CELL
        LD V5, 0
        ADD V6, 3
        SE V6, 9 * 3
        JP CELL
        LD V6, 29           ; draw the bar, 8 columns at once
        LD I, BAR
BARS:   DRW V5, V6, 2
        ADD V5, 8
        SE V5, 64
        JP BARS
        LD V5, 3            ; the player is in column 1 of row 1
        LD V6, 3
        LD V7, WIDE + 1
        LD V8, TIME
        LD V9, 0
        LD I, MAN
        DRW V5, V6, 3
READY:  LD V0, K
        SE V0, 5
        JP READY

TURN:   LD V0, DT           ; wait until the last turn is over
        SE V0, 0
        JP TURN
        LD V0, 8
        LD DT, V0
        ADD V8, -1          ; the time
        SNE V8, 0
        JP LATE
        LD V0, V8
        SHR V0, V0          ; half of it is a column of the bar; VF is 1 each second turn
        LD V1, 29
        LD I, DOT
        SE VF, 0
        DRW V0, V1, 2       ; off
        LD V4, 0
ASK:    LD I, WAYS          ; which key is down?
        ADD I, V4
        LD V3, [I]          ; V0 is a key, V1 and V2 its way on the screen, V3 its way in MAP
        SKNP V0
        JP STEP
        ADD V4, 4
        SE V4, 16
        JP ASK
        JP TURN

STEP:   LD V4, V7           ; what is there?
        ADD V4, V3
        LD I, MAP
        ADD I, V4
        LD V0, [I]
        SNE V0, '#'
        JP TURN             ; a wall blocks
        SNE V0, 'D'
        SE V9, 0
        JP WALK             ; it is no door, or he has the key
        JP TURN
WALK:   LD I, MAN
        DRW V5, V6, 3       ; off: drawn again, a sprite vanishes
        ADD V5, V1
        ADD V6, V2
        ADD V7, V3
        SNE V0, 'K'
        SE V9, 0
        JP ON               ; it is no key, or he has it
        LD V9, 1
        LD I, KEY           ; the key and the door vanish
        DRW V5, V6, 3
        LD V1, DOORX
        LD V2, DOORY
        LD I, DOOR
        DRW V1, V2, 3
        LD ST, V2           ; 15 ticks of sound
ON:     LD I, MAN
        DRW V5, V6, 3       ; on
        SE V0, 'D'
        JP TURN
        LD ST, V5           ; he is out: 60 ticks
        LD I, WON
        CALL WORD
WIN:    LD V0, K
        SE V0, 5
        JP WIN
        JP START
LATE:   LD I, GONE
        CALL WORD
LOST:   LD V0, K
        SE V0, 5
        JP LOST
        JP START

WORD:   CLS                 ; show two sprites of five rows, from I on
        LD V0, 24
        LD V1, 13
        LD V2, 5
        DRW V0, V1, 5
        ADD V0, 8
        ADD I, V2
        DRW V0, V1, 5
        RET

        ALIGN OFF           ; no zero byte after a row of MAP, which has 21 bytes
WAYS:   DB 2, 0, -3, -WIDE, 8, 0, 3, WIDE, 4, -3, 0, -1, 6, 3, 0, 1
MAN:    DB $.1......, $111....., $1.1.....   ; a row of a sprite has 8 pixels; the three at its left are the cell
KEY:    DB $.1......, $1.1....., $.1......
DOOR:   DB $1.1....., $1.1....., $1.1.....
WALL:   DB $11......, $11......, 0
DOT:    DB $1......., $1.......
BAR:    DB $11111111, $11111111
WON:    DB $1...1.1., $1...1.1., $1.1.1.1., $1.1.1.1., $.1.1..1., $1..1...., $11.1...., $1.11...., $1..1...., $1..1....
GONE:   DB $1...111., $1...1.1., $1...1.1., $1...1.1., $111.111., $111.111., $1....1.., $111..1.., $..1..1.., $111..1..
MAP:    DA '#####################'
        DA '#       #   #     # #'
        DA '####### ### # # # # #'
        DA '#    K#   #   #     #'
        DA '### ### # ### # # # #'
        DA '#   #   #   #   #   D'
        DA '# ### # ### # ### ###'
        DA '#     #       #     #'
        DA '#####################'
