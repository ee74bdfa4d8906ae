/* Tries heap.c natively, over memory of its own, with random calls: cc -w -o heap_test heap_test.c && ./heap_test
 *
 * Of each block it is looked at that it lies at a multiple of 16, within memory and apart from all others, and that it keeps its bytes
 * until it is given back: also where it is made larger or smaller, and where that is refused. What was given back has to serve again.
 */
#include <stdint.h>
#include <stdio.h>
#include <stdlib.h>
#include <string.h>

#define PAGES 1024
#define PAGE_BYTES 65536ULL
#define BLOCKS 200
#define CALLS 20000

/* All memory. The heap begins behind its first bytes, as it does behind what the linker places. */
_Alignas(65536) unsigned char memory[PAGES * PAGE_BYTES];
__asm__(".globl __heap_base\n.set __heap_base, memory + 24");
static unsigned long long pages = 1, granted = PAGES / 16;

static unsigned long long size_in_pages(void) {
    return (uintptr_t)memory / PAGE_BYTES + pages;
}

static unsigned long long grow_by(unsigned long long more) {
    if (pages + more > PAGES)
        return -1ULL;
    pages += more;
    return size_in_pages() - more;
}

#define __builtin_wasm_memory_size(index) size_in_pages()
#define __builtin_wasm_memory_grow(index, more) grow_by(more)
#include "heap.c"

int may_grow(u64 bytes) {
    return bytes <= (uintptr_t)memory + granted * PAGE_BYTES;
}

static struct {
    unsigned char *place;
    u64 length;
    unsigned char mark;
} blocks[BLOCKS];
static u64 refused;

static void demand(int holds, const char *what) {
    if (!holds) {
        printf("heap.c: %s\n", what);
        exit(1);
    }
}

/* Lengths of all sizes: mostly small, some of megabytes, some that no memory has. */
static u64 any_length(void) {
    int bits = rand() % 19;
    return rand() % 1000 == 0 ? 1ULL << (40 + rand() % 20) : (u64)rand() % (2ULL << bits);
}

static void look_at(int number) {
    unsigned char *place = blocks[number].place;
    for (u64 i = 0; i < blocks[number].length; i++)
        demand(place[i] == blocks[number].mark, "a block has lost its bytes");
}

static void look_at_place(int number) {
    unsigned char *place = blocks[number].place, *end = place + blocks[number].length;
    demand((uintptr_t)place % 16 == 0, "a block lies at no multiple of 16");
    demand(place >= memory + 24 && end <= memory + pages * PAGE_BYTES, "a block lies outside memory");
    for (int other = 0; other < BLOCKS; other++)
        if (other != number && blocks[other].place)
            demand(end <= blocks[other].place || place >= blocks[other].place + blocks[other].length, "two blocks overlap");
}

static void fill(int number, u64 length) {
    blocks[number].length = length;
    blocks[number].mark = rand();
    memset(blocks[number].place, blocks[number].mark, length);
}

static void take(int number) {
    u64 length = any_length();
    struct tried made = rattle_alloc(length, 16);
    refused += !made.ok;
    if (!made.ok)
        return;
    blocks[number].place = made.place;
    fill(number, length);
    look_at_place(number);
}

static void change(int number) {
    u64 length = any_length(), kept = blocks[number].length;
    look_at(number);
    struct tried made = rattle_realloc(blocks[number].place, kept, length, 16);
    refused += !made.ok;
    if (made.ok) {
        blocks[number].place = made.place;
        blocks[number].length = kept < length ? kept : length;
    }
    look_at(number);
    look_at_place(number);
    fill(number, blocks[number].length);
}

static void give_back(int number) {
    look_at(number);
    rattle_dealloc(blocks[number].place);
    blocks[number].place = 0;
}

int main(void) {
    srand(69);
    for (u64 n = 1; n < 1 << 20; n++) {
        u64 size = size_for(n);
        demand(n <= bytes_of(size) && (size == 0 || bytes_of(size - 1) < n), "a length has not its least size");
    }
    demand(size_for(MOST) < SIZES && bytes_of(size_for(MOST)) >= MOST, "the largest length has no size");
    for (int call = 0; call < CALLS; call++) {
        int number = rand() % BLOCKS;
        if (!blocks[number].place)
            take(number);
        else if (rand() % 2)
            change(number);
        else
            give_back(number);
    }
    demand(refused > CALLS / 1000 && refused < CALLS / 4, "nothing was refused, or too much");
    for (int number = 0; number < BLOCKS; number++)
        if (blocks[number].place)
            give_back(number);
    unsigned long long before = pages;
    for (int round = 0; round < 1000; round++) {
        struct tried made = rattle_alloc(1000, 16);
        demand(made.ok && pages == before, "what was given back does not serve again");
        rattle_dealloc(made.place);
    }
    printf("all as it should be\n");
    return 0;
}
