/* Tests an emulator with the whole programs of chipbench-steps, and prints the first difference of each.

       cc -std=c99 -o run_programs run_programs.c emulator.c
       ./run_programs schip/programs.txt

   For another emulator change `difference`, and in `main` how a machine is made and makes a step. */
#include "emulator.h"

#include <stdio.h>
#include <stdlib.h>
#include <string.h>

static unsigned read_bytes(const char *text, uint8_t *bytes) {
    unsigned count = 0;
    for (char pair[3] = ""; text[0] && text[1]; text += 2) {
        memcpy(pair, text, 2);
        bytes[count++] = strtoul(pair, NULL, 16);
    }
    return count;
}

/* The sum FNV-1a of 64 bits. */
static unsigned long long sum(const void *bytes, int count) {
    unsigned long long total = 0xcbf29ce484222325;
    for (int at = 0; at < count; at++) total = (total ^ ((const uint8_t *)bytes)[at]) * 0x100000001b3;
    return total;
}

/* Reads the rest of the line of a state, and answers which part of the machine differs, or NULL. */
static const char *difference(FILE *file, const Machine *machine) {
    unsigned pc, i, dt, st, depth, stop;
    unsigned long long screen, memory;
    char text[33];
    uint8_t v[16];
    if (fscanf(file, "%x %x %x %x %x %32s %llx %llx %x", &pc, &i, &dt, &st, &depth, text, &screen, &memory, &stop) != 9) return "line";
    read_bytes(text, v);
    if (machine->pc != pc || machine->stop != stop) return machine->pc != pc ? "pc" : "stop";
    if (machine->i != i || machine->depth != depth) return machine->i != i ? "I" : "depth of the stack";
    if (machine->dt != dt || machine->st != st || memcmp(machine->v, v, 16)) return "a register";
    if (sum(machine->memory, 4096) != memory) return "memory";
    return sum(machine->screen, 1024) != screen ? "screen" : NULL;
}

int main(int count, char **names) {
    static char kind[8], profile[200], tape_text[8193], image[7200];
    static int keys[1 << 16][3], events, next, one, rate, step, wanted, programs, differ, is_wrong;
    unsigned down = 0;
    Machine machine;
    Tape tape;
    for (int at = 1; at < count; at++) {
        FILE *file = fopen(names[at], "r");
        if (!file) exit((printf("cannot read %s\n", names[at]), 2));
        while (fscanf(file, "%7s", kind) == 1) {
            if (strcmp(kind, "program") == 0) {
                if (fscanf(file, " 1 %199s %d %d %8192s %7199s", profile, &one, &rate, tape_text, image) != 5) exit((puts("another format"), 2));
                if (!machine_start(&machine, profile)) exit((printf("the emulator has no profile %s\n", profile), 2));
                read_bytes(image, machine.memory + 0x200);
                tape.length = read_bytes(tape_text, tape.bytes), tape.used = down = 0;
                programs++, events = next = step = is_wrong = 0;
            } else if (strcmp(kind, "key") == 0) {
                if (fscanf(file, "%d %x %d", &keys[events][0], (unsigned *)&keys[events][1], &keys[events][2]) == 3) events++;
            } else if (strcmp(kind, "state") == 0 && fscanf(file, "%d", &wanted) == 1) {
                for (; step < wanted; step++) {
                    for (; next < events && keys[next][0] == step; next++)
                        down = keys[next][2] ? down | 1u << keys[next][1] : down & ~(1u << keys[next][1]);
                    machine_step(&machine, down, (step + 1) % rate == 0, &tape);
                }
                const char *found = difference(file, &machine);
                if (found && !is_wrong++ && ++differ) printf("program %d at step %d: %s\n", one, wanted, found);
            }
        }
        fclose(file);
    }
    if (!programs) exit((puts("no program read; give a file such as schip/programs.txt"), 2));
    printf("%d of %d programs differ\n", differ, programs);
    return differ > 0;
}
