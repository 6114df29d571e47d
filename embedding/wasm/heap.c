/* The heap of weirbowl.wasm: the three functions that the engine calls, over the module's own memory, and what the host
 * calls. No proof covers it; tests/browser.py tries it.
 *
 * A block is of a size class, four to a doubling, and has 16 bytes before it that hold the class. A freed block goes to
 * the list of its class and from there to the next allocation of that class; the memory grows if a list is empty. */
typedef unsigned char u8;
typedef unsigned int u32;
typedef unsigned long long u64;

/* a test that compiles this file for another machine defines these itself */
#ifndef GROW
extern u8 __heap_base;
#define EXPORT(name) __attribute__((export_name(name)))
#define PAGES() __builtin_wasm_memory_size(0)
#define GROW(pages) (void)__builtin_wasm_memory_grow(0, pages)
#endif

/* the bytes of the largest block */
#define MOST (1ULL << 40)

/* What an allocation returns to the engine. */
typedef struct tried {
    u64 succeeded;
    void *block;
} tried;

typedef struct free_block {
    struct free_block *next;
} free_block;

static free_block *lists[160];
static u64 top, end, live, until_refused;
/* what an allocation of no bytes that failed points to: never null */
static u8 nothing[16];

/* Returns the least class whose blocks have n bytes or more, for at most MOST bytes. */
static u32 class_of(u64 n) {
    u32 bits;
    if (n <= 64) return n <= 16 ? 1 : (u32)((n + 15) >> 4);
    bits = 63 - (u32)__builtin_clzll(n - 1);
    return 4 * (bits - 5) + (u32)(((n - 1) >> (bits - 2)) & 3) + 1;
}

/* Returns the bytes of a block of a class: a multiple of 16. */
static u64 size_of(u32 class) {
    if (class <= 4) return 16 * (u64)class;
    return (u64)(5 + (class - 1) % 4) << ((class - 1) / 4 + 3);
}

/* Grows the memory until `need` bytes lie behind `top`, by 1 MiB or more if the host grants that. Returns whether it did. */
static int grow(u64 need) {
    u64 pages, more;
    if (!top) {
        top = ((u64)&__heap_base + 15) & ~15ULL;
        end = PAGES() << 16;
    }
    if (need <= end - top) return 1;
    pages = (need - (end - top) + 65535) >> 16;
    more = pages < 16 ? 16 : pages;
    GROW(more);
    /* the size is asked for again, since a lowered memory.grow does not return -1 */
    end = PAGES() << 16;
    if (need > end - top && more > pages) {
        GROW(pages);
        end = PAGES() << 16;
    }
    return need <= end - top;
}

static void *take(u64 n) {
    u32 class;
    u64 need;
    free_block *found;
    u8 *made;
    if (n > MOST || (until_refused && --until_refused == 0)) return 0;
    class = class_of(n);
    found = lists[class];
    if (found) {
        lists[class] = found->next;
        live++;
        return found;
    }
    need = size_of(class) + 16;
    if (!grow(need)) return 0;
    made = (u8 *)top;
    *(u64 *)made = class;
    top += need;
    live++;
    return made + 16;
}

static u32 class_at(u8 *block) { return (u32) * (u64 *)(block - 16); }

static void give(u8 *block) {
    u32 class = class_at(block);
    ((free_block *)block)->next = lists[class];
    lists[class] = (free_block *)block;
    live--;
}

static tried outcome(void *block) { return (tried){block != 0, block ? block : nothing}; }

/* The alignment that is asked for divides 16, that of every block. */
tried rattle_alloc(u64 n, u64 align) {
    (void)align;
    return outcome(take(n));
}

tried rattle_realloc(u8 *block, u64 kept, u64 n, u64 align) {
    u64 has = size_of(class_at(block));
    u8 *moved;
    (void)align;
    if (n <= has && n > has / 2) return outcome(block);
    moved = take(n);
    if (!moved) return outcome(0);
    __builtin_memcpy(moved, block, kept < n ? kept : n);
    give(block);
    return outcome(moved);
}

void rattle_dealloc(u8 *block) { give(block); }

/* For the host: memory for the arguments of a call, or null; its end; and how many blocks are in use. */
EXPORT("weirbowl_host_alloc") void *host_alloc(u64 n) { return take(n); }
EXPORT("weirbowl_host_free") void host_free(u8 *block) { give(block); }
EXPORT("weirbowl_host_live") u64 host_live(void) { return live; }
/* Fails the n-th allocation from here on, and no other; none for 0. Returns how many were left until the last such one. */
EXPORT("weirbowl_host_refuse") u64 host_refuse(u64 n) {
    u64 left = until_refused;
    until_refused = n;
    return left;
}
