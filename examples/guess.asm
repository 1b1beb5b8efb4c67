; A guessing game: a random digit 0 to 15 is drawn; the player presses keys until one is the digit.
; Each miss counts one up in V5 and is shown as a small digit; a hit draws a big digit and ends the program.
        RND V0, 15
TRY:    LD V1, K            ; wait for a key
        ADD V5, 1
        SE V1, V0
        JP MISS
        CLS
        LD V6, 4
        LD HF, V5           ; how many tries it took
        DRW V6, V6, 10
        EXIT
MISS:   CLS
        LD F, V1
        LD V6, 8
        DRW V6, V6, 5
RELEASE:SKNP V1             ; until the key is up
        JP RELEASE
        JP TRY
