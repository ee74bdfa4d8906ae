/* The heap of np.wasm: what the proved program asks of memory, over WebAssembly's memory.grow.
 *
 * The program calls three functions, whose contracts are those of the kit's libc/src/heap.rt: rattle_alloc gives a block of n bytes,
 * rattle_realloc makes a block one of n bytes and keeps what stands in it, rattle_dealloc takes a block back. Any of the former two may
 * refuse, and nothing is changed then. Natively they stand over malloc; nothing proves this file.
 *
 * A block is 16 bytes of head and then its bytes, so that each block lies at a multiple of 16, which is the most that the program asks for.
 * How many bytes a block has is one of the sizes 16, 32, 48, 64, 80, 96, 112, 128, 160, 192, 224, 256, 320 .. (four to a doubling). A block
 * that is taken back waits in the list of its size. A new one is taken from that list, or from behind all blocks, or, where memory may not
 * grow for it, from the list of a larger size.
 */
typedef unsigned long long u64;

#define HEAD 16
#define PAGE 65536ULL
#define STEP (64 * PAGE)     /* memory grows by at least this much, so that it grows seldom */
#define MOST (1ULL << 40)    /* no block is larger: no memory is, and sums stay far from the greatest u64 */
#define SIZES 192            /* more than there are sizes up to MOST */

struct block {
    u64 size;                /* the number of its size */
    struct block *next;      /* in the list of its size, while it is free */
};

/* What is answered: whether there is memory, and where. Where there is none the place is one that is never read. */
struct tried {
    u64 ok;
    void *place;
};

extern unsigned char __heap_base;   /* the linker's: the first byte that nothing else has */

/* Whether memory may grow to this many bytes: the host says, so that a page can bound what a run takes. */
__attribute__((import_module("np"), import_name("may_grow"))) int may_grow(u64 bytes);

static struct block *free_blocks[SIZES];
static u64 top;              /* where the next new block begins; 0 at first */
static unsigned char nothing[16];

/* The number of the least size that has n bytes, which are from 1 to MOST. */
static u64 size_for(u64 n) {
    u64 below = (n + 15) / 16 - 1;
    if (below < 4)
        return below;
    u64 doubling = 61 - __builtin_clzll(below);
    return 4 * doubling + (below >> doubling);
}

static u64 bytes_of(u64 size) {
    if (size < 4)
        return 16 * (size + 1);
    return 16 * (size % 4 + 5) << (size / 4 - 1);
}

static struct block *block_at(void *place) {
    return (struct block *)((unsigned char *)place - HEAD);
}

static int grows(u64 have, u64 more) {
    return may_grow(have + more) && __builtin_wasm_memory_grow(0, more / PAGE) != -1ULL;
}

/* Sees to it that memory has this many bytes, and answers whether it has. */
static int has_room(u64 bytes) {
    u64 have = __builtin_wasm_memory_size(0) * PAGE;
    if (bytes <= have)
        return 1;
    u64 least = (bytes - have + PAGE - 1) / PAGE * PAGE;
    return (least < STEP && grows(have, STEP)) || grows(have, least);
}

/* A block that was taken back, of this size at the least and the greatest, or 0. */
static struct block *free_block(u64 least, u64 greatest) {
    for (u64 size = least; size <= greatest; size++) {
        struct block *found = free_blocks[size];
        if (found) {
            free_blocks[size] = found->next;
            return found;
        }
    }
    return 0;
}

/* A block from behind all others, or 0. */
static struct block *new_block(u64 size) {
    if (top == 0)
        top = ((u64)&__heap_base + 15) / 16 * 16;
    if (!has_room(top + HEAD + bytes_of(size)))
        return 0;
    struct block *made = (struct block *)top;
    made->size = size;
    top += HEAD + bytes_of(size);
    return made;
}

/* Makes the last of all blocks larger where it stands, and answers whether it did. */
static int grows_in_place(struct block *old, u64 size) {
    u64 start = (u64)old + HEAD;
    if (start + bytes_of(old->size) != top || !has_room(start + bytes_of(size)))
        return 0;
    old->size = size;
    top = start + bytes_of(size);
    return 1;
}

struct tried rattle_alloc(u64 n, u64 align) {
    struct tried none = {0, nothing};
    n = n ? n : align;
    if (n > MOST)
        return none;
    u64 size = size_for(n);
    struct block *made = free_block(size, size);
    made = made ? made : new_block(size);
    made = made ? made : free_block(size + 1, SIZES - 1);
    return made ? (struct tried){1, (unsigned char *)made + HEAD} : none;
}

void rattle_dealloc(void *place) {
    struct block *old = block_at(place);
    old->next = free_blocks[old->size];
    free_blocks[old->size] = old;
}

struct tried rattle_realloc(void *place, u64 kept, u64 n, u64 align) {
    struct block *old = block_at(place);
    n = n ? n : align;
    if (n <= bytes_of(old->size) || (n <= MOST && grows_in_place(old, size_for(n))))
        return (struct tried){1, place};
    struct tried made = rattle_alloc(n, align);
    if (made.ok) {
        __builtin_memcpy(made.place, place, kept < n ? kept : n);
        rattle_dealloc(place);
    }
    return made;
}
