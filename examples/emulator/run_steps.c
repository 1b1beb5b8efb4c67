/* Tests an emulator with flat files of chipbench-steps, and prints the first difference in each file.

       cc -std=c99 -o run_steps run_steps.c emulator.c
       ./run_steps schip/8XY4.txt schip/DXYN.txt
   For another emulator change `read_state` and `difference`, and in `try_case` how a machine is made and makes a step. */
#include "emulator.h"
#include <stdio.h>
#include <stdlib.h>
#include <string.h>

static const char *at; /* what is still to be read of a line */
static unsigned digit(char letter) { return letter <= '9' ? letter - '0' : letter - 'a' + 10; }

static unsigned number(void) {
    unsigned value = 0;
    for (at += *at == ' '; *at > ' '; at++) value = 16 * value + digit(*at);
    return value;
}

static void read_bytes(uint8_t *bytes, int count) {
    for (at += *at == ' '; count > 0 && *at > ' '; count--, at += 2) *bytes++ = 16 * digit(at[0]) + digit(at[1]);
}

/* Reads a state over another one: of memory and screen only what the line has. */
static void read_state(Machine *machine, Tape *tape) {
    machine->pc = number(), machine->i = number(), machine->dt = number(), machine->st = number(), machine->high = number();
    read_bytes(machine->v, 16), read_bytes(machine->flags, 8);
    machine->depth = number();
    for (int one = 0; one < machine->depth; one++) machine->stack[one] = number();
    for (int count = number(); count > 0; count--) { int address = number(); machine->memory[address] = number(); }
    for (int count = number(); count > 0; count--) { int row = number(); read_bytes(machine->screen[row], 16); }
    tape->length = number();
    for (unsigned one = 0; one < tape->length; one++) tape->bytes[one] = number();
}

/* The name of a part that differs, or NULL. */
static const char *difference(const Machine *a, const Machine *b) {
    if (a->stop != b->stop) return "stop";
    if (a->pc != b->pc || a->i != b->i) return a->pc != b->pc ? "pc" : "I";
    if (a->dt != b->dt || a->st != b->st) return "timers";
    if (memcmp(a->v, b->v, sizeof a->v)) return "V0 to VF";
    if (memcmp(a->memory, b->memory, sizeof a->memory)) return "memory";
    if (a->high != b->high || memcmp(a->screen, b->screen, sizeof a->screen)) return "screen";
    if (memcmp(a->flags, b->flags, sizeof a->flags)) return "flag registers";
    return a->depth != b->depth || memcmp(a->stack, b->stack, 2 * a->depth) ? "stack" : NULL;
}

/* Tries the case whose line is read, and answers what differs. */
static const char *try_case(const char *profile) {
    static Machine machine, expected;
    static Tape tape, left;
    if (!machine_start(&machine, profile)) exit((printf("the emulator has no profile %s\n", profile), 2));
    memset(machine.memory, 0, sizeof machine.memory);
    unsigned stop = number(), keys = number(), tick = number();
    read_state(&machine, &tape), tape.used = 0;
    expected = machine, expected.stop = stop;
    read_state(&expected, &left);
    machine_step(&machine, keys, tick, &tape);
    return tape.length - tape.used != left.length ? "random bytes" : difference(&machine, &expected);
}

int main(int count, char **names) {
    static char line[1 << 16], profile[200], row[8];
    int differ = 0, cases = 0, format, one, used;
    for (int name = 1; name < count; name++) {
        FILE *file = fopen(names[name], "r");
        if (!file) exit((printf("cannot read %s\n", names[name]), 2));
        for (int before = differ; fgets(line, sizeof line, file);) {
            if (sscanf(line, "step %d %199s %7s %d%n", &format, profile, row, &one, &used) != 4) continue;
            if (format != 1) exit((printf("%s has another format\n", names[name]), 2));
            at = line + used, cases++;
            const char *found = try_case(profile);
            if (found && differ++ == before) printf("%s case %d: %s    (%.*s)\n", row, one, found, (int)strcspn(at, "\n") - 1, at + 1);
        }
        fclose(file);
    }
    if (!cases) exit((puts("no case read; give a file such as schip/8XY4.txt"), 2));
    return printf("%d of %d cases differ\n", differ, cases), differ > 0;
}
