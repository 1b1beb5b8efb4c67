/* A CHIP-8 and SUPER-CHIP machine, whose rules are those of docs/MACHINE.md. */
#ifndef EMULATOR_H
#define EMULATOR_H

#include <stdint.h>

typedef struct Quirks Quirks;

typedef struct {
    uint8_t memory[4096], v[16], flags[8], dt, st;
    uint16_t pc, i, stack[16];
    uint8_t depth;          /* how many return addresses are on the stack */
    uint8_t high;           /* whether sprites are drawn in the high size */
    uint8_t screen[64][16]; /* rows of 128 stored pixels, the leftmost one in the highest bit of the first byte */
    uint8_t stop;           /* 1 to 7 for S1 to S7, 0 while the machine goes on */
    const Quirks *quirks;
} Machine;

/* Random bytes, which are used over and over, and how many were used. */
typedef struct {
    uint8_t bytes[4096];
    unsigned length, used;
} Tape;

/* Makes a machine of a profile at its start: the digits in its memory, and pc at 0x200. Answers 0 where there is no such profile. */
int machine_start(Machine *machine, const char *profile);

/* Executes an instruction. Key k is bit k of `keys`; `tick` says whether the timers tick after it. */
void machine_step(Machine *machine, uint16_t keys, int tick, Tape *tape);

#endif
