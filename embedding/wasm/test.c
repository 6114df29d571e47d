/* Tries heap.c and wide.c where they are compiled for this machine: random blocks keep their bytes and do not overlap; the
 * wide arithmetic is the compiler's. Prints how much it tried. */
#include <stdio.h>
#include <stdlib.h>
#include <string.h>

#define EXPORT(name)
#define PAGES() (((u64)memory >> 16) + pages_there)
#define GROW(more) grow_to(pages_there + (more))
/* the memory of the module: at most 64 MiB, from its own first page on */
#define MOST_PAGES 1024ULL
static unsigned long long pages_there = 2;
static void grow_to(unsigned long long wanted) {
    if (wanted <= MOST_PAGES) pages_there = wanted;
}
static unsigned char memory[MOST_PAGES << 16] __attribute__((aligned(65536)));
#define __heap_base memory[0]
#include "heap.c"
#define NAMED(name) our##name
#include "wide.c"

#define BLOCKS 500
static struct {
    u8 *at;
    u64 length;
    u8 fill;
} held[BLOCKS];

static void fail(const char *what, unsigned long long at) {
    printf("%s at step %llu: expected to hold, got otherwise\n", what, at);
    exit(1);
}

static u64 drawn(void) {
    static u64 state = 88172645463325252ULL;
    state ^= state << 13, state ^= state >> 7, state ^= state << 17;
    return state;
}

static u64 size(void) { return drawn() % (drawn() % 8 ? 300 : drawn() % 4 ? 20000 : 3000000); }

static void check(u64 i, u64 length, u64 step) {
    for (u64 j = 0; j < length; j++)
        if (held[i].at[j] != held[i].fill) fail("a block's bytes", step);
}

static void fill(u64 i, u8 *at, u64 length) {
    held[i].at = at, held[i].length = length, held[i].fill = (u8)drawn();
    if (((u64)at & 15) || at < memory || at + length > memory + (pages_there << 16)) fail("a block in the memory", length);
    memset(at, held[i].fill, length);
}

static u64 try_heap(u64 steps) {
    u64 refused = 0, count = 0;
    for (u64 step = 0; step < steps; step++) {
        u64 i = drawn() % BLOCKS, length = size();
        if (!held[i].at) {
            tried got = rattle_alloc(length, 8);
            if (got.succeeded) fill(i, got.block, length), count++;
            else refused++;
        } else if (drawn() % 2) {
            u64 kept = drawn() % (held[i].length + 1);
            tried got = rattle_realloc(held[i].at, kept, length, 8);
            if (!got.succeeded) refused++;
            else {
                held[i].at = got.block;
                check(i, kept < length ? kept : length, step);
                fill(i, got.block, length);
            }
        } else {
            check(i, held[i].length, step);
            rattle_dealloc(held[i].at), held[i].at = 0, count--;
        }
        if (host_live() != count) fail("the blocks in use", step);
    }
    return refused;
}

static u128 wide(void) { return (u128)(drawn() >> drawn() % 64) << 64 | drawn() >> drawn() % 64; }

static void try_wide(u64 steps) {
    for (u64 step = 0; step < steps; step++) {
        u128 x = wide(), y = wide();
        int n = (int)(drawn() & 127);
        if (our__multi3(x, y) != x * y) fail("the product", step);
        if (our__ashlti3(x, n) != x << n) fail("the shift to the left", step);
        if (our__lshrti3(x, n) != x >> n) fail("the shift to the right", step);
    }
}

int main(void) {
    u64 refused = try_heap(30000);
    if (!refused) fail("an allocation that fails", 0);
    if (rattle_alloc(1ULL << 62, 8).succeeded) fail("an allocation of 4 EiB", 0);
    host_refuse(2);
    if (!rattle_alloc(1, 1).succeeded || rattle_alloc(1, 1).succeeded || !rattle_alloc(1, 1).succeeded) fail("the second refused", 0);
    try_wide(200000);
    printf("the heap and the wide arithmetic: all checks passed\n");
    return 0;
}
