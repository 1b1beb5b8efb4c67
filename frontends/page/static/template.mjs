// A small game to begin with.

export const TEMPLATE = `; A ship that two keys move: 7 to the left, 9 to the right.
LEFT    EQU 7
RIGHT   EQU 9

START:  LD V0, 28           ; the ship's column
        LD V1, 27           ; its row
        LD V2, LEFT
        LD V3, RIGHT
        CALL SHIP           ; on

TURN:   LD V4, 2            ; a turn is two ticks of the delay timer
        LD DT, V4
        CALL SHIP           ; off
        SKNP V2
        ADD V0, 255         ; one column to the left
        SKNP V3
        ADD V0, 1           ; one column to the right
        CALL SHIP           ; on again, where it is now
WAIT:   LD V4, DT
        SE V4, 0
        JP WAIT
        JP TURN

; Draws the ship, or takes it away where it is drawn already.
SHIP:   LD I, PIXELS
        DRW V0, V1, 4
        RET
PIXELS: DB $...11..., $..1111.., $.111111., $11111111
`;
