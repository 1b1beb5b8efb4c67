/* Tests the decoder of an emulator with words.txt of chipbench-steps, which has the verdict for each of the 65536 words.

       cc -std=c99 -o run_words run_words.c emulator.c
       ./run_words schip/words.txt

   For another emulator change how `try_words` makes a machine and a step. */
#include "emulator.h"

#include <stdio.h>
#include <stdlib.h>

/* The first of some words that are instructions, or aren't, for which the emulator has it the other way round; or -1. */
static long try_words(const char *profile, unsigned first, unsigned last, int is_instruction) {
    for (unsigned word = first; word <= last; word++) {
        Machine machine;
        Tape tape = {{0}, 1, 0};
        machine_start(&machine, profile);
        machine.memory[0x200] = word >> 8, machine.memory[0x201] = word & 255;
        machine_step(&machine, 0, 0, &tape);
        if ((machine.stop != 2) != is_instruction) return word;
    }
    return -1;
}

int main(int count, char **names) {
    FILE *file = count == 2 ? fopen(names[1], "r") : NULL;
    char profile[200], row[8];
    unsigned first, last;
    int differ = 0, runs = 0;
    if (!file) exit((puts("usage: run_words FOLDER/words.txt"), 2));
    for (; fscanf(file, " words 1 %199s %x %x %7s", profile, &first, &last, row) == 4; runs++) {
        long word = try_words(profile, first, last, *row != '-');
        if (word >= 0 && ++differ) printf("word %04lx %s\n", word, *row == '-' ? "isn't an instruction" : row);
    }
    if (!runs) exit((puts("no words read; give a file such as schip/words.txt"), 2));
    printf("%d of %d runs of words differ\n", differ, runs);
    return differ > 0;
}
