/* Equality of slices of bytes, by words. The std's own code is written for instructions on 16 bytes at a time; without these, it goes
   byte by byte. Binaryen 108 can't lower such instructions to a memory of 32 bits. */
typedef unsigned char byte;
typedef unsigned long word;

static word word_at(const byte *place) {
    word found;
    __builtin_memcpy(&found, place, sizeof found);
    return found;
}

/* The last word may lie over the one before it. Both counts are the same: a slice comes with its own. */
_Bool bytes_equal(const byte *left, word count, const byte *right, word same) {
    (void)same;
    if (count < sizeof(word)) {
        for (word place = 0; place < count; place++)
            if (left[place] != right[place]) return 0;
        return 1;
    }
    for (word place = 0; place <= count - sizeof(word); place += sizeof(word))
        if (word_at(left + place) != word_at(right + place)) return 0;
    return word_at(left + count - sizeof(word)) == word_at(right + count - sizeof(word));
}
