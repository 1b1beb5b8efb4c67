/* The heap of a WebAssembly module with one thread, over memory.grow. A growth that the host refuses is a null pointer, and
   never a trap.

   Memory is a row of blocks. Each has a header of 16 bytes before its own: its size with the header, whether it is taken, and
   the size of the block before it. What is freed is merged with the free blocks beside it, so no two free blocks are
   neighbours. Free blocks hang in lists by size; a bit for each list says whether it has any. The search takes the first that
   is large enough of the first list that may have one. */
typedef unsigned long word;
typedef unsigned char byte;

enum { GRANULE = 16, PAGE = 65536, LISTS = 64 };
static const word TAKEN = 1;
/* No block is larger: sizes and their sums fit a memory of 32 bits. */
static const word MOST = (word)1 << 31;

struct block {
    word size; /* with this header, a multiple of 16; TAKEN is added */
    word before;
    struct block *next; /* of a free block: its list */
    struct block *last;
};

extern byte __heap_base;
static struct block *lists[LISTS];
static word listed;       /* a bit for each list that isn't empty */
static word first, end;   /* where the row begins, and where memory ends */
static struct block *top; /* the last block of the row, which may be free */

static word size_of(const struct block *block) { return block->size & ~TAKEN; }
static int is_taken(const struct block *block) { return block->size & TAKEN; }
static struct block *after(struct block *block) { return (struct block *)((word)block + size_of(block)); }
static struct block *before(struct block *block) { return (struct block *)((word)block - block->before); }

/* Four lists for each doubling of the size, from 32 bytes on. */
static int list_of(word size) {
    int high = 63 - __builtin_clzl(size);
    int list = (high - 5) * 4 + (int)((size >> (high - 2)) & 3);
    return list < LISTS ? list : LISTS - 1;
}

static void put(struct block *block) {
    int list = list_of(block->size);
    block->last = 0;
    block->next = lists[list];
    if (block->next) block->next->last = block;
    lists[list] = block;
    listed |= (word)1 << list;
}

static void take(struct block *block) {
    int list = list_of(block->size);
    if (block->next) block->next->last = block->last;
    if (block->last) block->last->next = block->next;
    else if (!(lists[list] = block->next)) listed &= ~((word)1 << list);
}

/* Tells the block after this one where it begins. */
static void tell(struct block *block) {
    if (block == top) return;
    after(block)->before = size_of(block);
}

/* Keeps the front of a taken block, and frees the rest where it is worth a block. */
static void cut(struct block *block, word size) {
    word rest = size_of(block) - size;
    if (rest < 2 * GRANULE) return;
    block->size = size | TAKEN;
    struct block *free = after(block);
    free->size = rest;
    free->before = size;
    if (block == top) top = free;
    else if (!is_taken(after(free))) {
        struct block *next = after(free);
        take(next);
        free->size += next->size;
        if (next == top) top = free;
    }
    tell(free);
    put(free);
}

static struct block *find(word size) {
    int list = list_of(size);
    for (struct block *block = lists[list]; block; block = block->next)
        if (block->size >= size) return block;
    word larger = list + 1 < LISTS ? listed >> (list + 1) << (list + 1) : 0;
    return larger ? lists[__builtin_ctzl(larger)] : 0;
}

/* Whether memory has that many bytes more. Where the module's memory was made one of 32 bits, a refusal reads 2^32 - 1. */
static int grow(word bytes) {
    word pages = (bytes + PAGE - 1) / PAGE, many = pages < 16 ? 16 : pages;
    if ((__builtin_wasm_memory_grow(0, many) & 0xffffffff) == 0xffffffff) {
        if (many == pages || (__builtin_wasm_memory_grow(0, pages) & 0xffffffff) == 0xffffffff) return 0;
        many = pages;
    }
    end += many * PAGE;
    return 1;
}

/* A free block of that size at the end of the row. */
static struct block *extend(word size) {
    if (!first) {
        first = ((word)&__heap_base + GRANULE - 1) & ~(word)(GRANULE - 1);
        end = __builtin_wasm_memory_size(0) * PAGE;
    }
    int is_last_free = top && !is_taken(top);
    word place = !top ? first : is_last_free ? (word)top : (word)after(top);
    if (end - place < size && !grow(size - (end - place))) return 0;
    struct block *block = (struct block *)place;
    if (is_last_free) take(block);
    else block->before = top ? size_of(top) : 0;
    block->size = (end - place) & ~(word)(GRANULE - 1);
    top = block;
    put(block);
    return block;
}

static word whole_size(word count) {
    word size = (count + GRANULE + GRANULE - 1) & ~(word)(GRANULE - 1);
    return size < 2 * GRANULE ? 2 * GRANULE : size;
}

void *malloc(word count) {
    if (count >= MOST) return 0;
    word size = whole_size(count);
    struct block *block = find(size);
    if (!block) block = extend(size);
    if (!block) return 0;
    take(block);
    block->size |= TAKEN;
    cut(block, size);
    return (byte *)block + GRANULE;
}

void free(void *bytes) {
    if (!bytes) return;
    struct block *block = (struct block *)((byte *)bytes - GRANULE);
    block->size &= ~TAKEN;
    if (block != top && !is_taken(after(block))) {
        struct block *next = after(block);
        take(next);
        block->size += next->size;
        if (next == top) top = block;
    }
    if (block->before && !is_taken(before(block))) {
        struct block *front = before(block);
        take(front);
        front->size += block->size;
        if (block == top) top = front;
        block = front;
    }
    tell(block);
    put(block);
}

/* Grows in place where the block after this one is free and large enough. */
static int widen(struct block *block, word size) {
    if (block == top) return 0;
    struct block *next = after(block);
    if (is_taken(next) || size_of(block) + next->size < size) return 0;
    take(next);
    block->size += next->size;
    if (next == top) top = block;
    tell(block);
    return 1;
}

void *realloc(void *bytes, word count) {
    if (!bytes) return malloc(count);
    if (count >= MOST) return 0;
    struct block *block = (struct block *)((byte *)bytes - GRANULE);
    word size = whole_size(count);
    if (size_of(block) >= size || widen(block, size)) {
        cut(block, size);
        return bytes;
    }
    void *moved = malloc(count);
    if (!moved) return 0;
    __builtin_memcpy(moved, bytes, size_of(block) - GRANULE);
    free(bytes);
    return moved;
}

/* What std's heap calls: whether there is memory, and where. A pointer is never null where there is. */
struct tried {
    word is_there;
    void *bytes;
};

static byte nothing;

static struct tried tried(void *bytes) {
    struct tried answer = {bytes != 0, bytes ? bytes : &nothing};
    return answer;
}

void try_alloc(struct tried *answer, word count, word alignment) { *answer = tried(malloc(count ? count : alignment)); }

void try_realloc(struct tried *answer, void *bytes, word kept, word count, word alignment) {
    (void)kept;
    *answer = tried(realloc(bytes, count ? count : alignment));
}

void rattle_dealloc(void *bytes) { free(bytes); }

/* For the host, which passes bytes to the module. */
void *host_alloc(word count) { return malloc(count); }
void host_free(void *bytes) { free(bytes); }
