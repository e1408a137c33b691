/* The heap of a module: rattle_alloc, rattle_realloc and rattle_dealloc, as the kit's libc/c/heap.c has them over malloc.
 *
 * A block has 16 bytes before it, which hold its class. There are four classes for each doubling of the size; a freed block
 * waits in the list of its class and is given out again only for that class. A block that no list has is cut off the end of
 * what is in use, for which the memory grows. The last block grows in place. Where memory can't grow, the answer is 0, and
 * nothing traps. */
typedef unsigned long u64;
typedef unsigned char u8;

typedef struct {
    u64 ok;
    void *p;
} Tried;

typedef struct Block {
    u64 class;
    struct Block *next; /* while it is free */
} Block;

#define HEAD 16
#define CLASSES 192
#define PAGE 65536UL
#define MOST (1UL << 40)

extern u8 __heap_base;
static Block *freed[CLASSES];
static u64 end;  /* the first byte that no block has */
static u64 peak; /* its largest value */
static u64 live; /* how many blocks are in use; where none is, all that was freed is forgotten */

/* The least class whose blocks have so many bytes, from 16. */
static u64 class_of(u64 n) {
    if (n <= 64) return n <= 16 ? 0 : (n + 15) / 16 - 1;
    u64 k = 63 - __builtin_clzl(n - 1); /* 2^k < n <= 2^(k + 1) */
    return (k - 5) * 4 + ((n - 1) >> (k - 2) & 3);
}

static u64 size_of(u64 class) {
    return class < 4 ? (class + 1) * 16 : (5 + (class & 3)) << (class / 4 + 3);
}

/* Whether the memory reaches so far. The answer of memory.grow isn't read: where a tool has made the module one with a memory of
 * 32 bits, it isn't the same number. */
static int reaches(u64 to) {
    u64 has = __builtin_wasm_memory_size(0) * PAGE;
    if (to <= has) return 1;
    u64 want = to - has, more = want > (1UL << 20) ? want : 1UL << 20;
    __builtin_wasm_memory_grow(0, (more + PAGE - 1) / PAGE);
    if (to <= __builtin_wasm_memory_size(0) * PAGE) return 1;
    __builtin_wasm_memory_grow(0, (want + PAGE - 1) / PAGE);
    return to <= __builtin_wasm_memory_size(0) * PAGE;
}

static int ends_at(u64 to) {
    if (!reaches(to)) return 0;
    end = to;
    if (end > peak) peak = end;
    return 1;
}

static void *take(u64 n) {
    if (n > MOST) return 0;
    u64 class = class_of(n);
    Block *block = freed[class];
    if (block) {
        freed[class] = block->next;
    } else {
        if (!end) end = ((u64)&__heap_base + 15) & ~15UL;
        block = (Block *)end;
        if (!ends_at(end + HEAD + size_of(class))) return 0;
        block->class = class;
    }
    live++;
    return (u8 *)block + HEAD;
}

static void give(void *p) {
    Block *block = (Block *)((u8 *)p - HEAD);
    if (--live == 0) {
        for (int k = 0; k < CLASSES; k++) freed[k] = 0;
        end = 0;
        return;
    }
    if ((u64)p + size_of(block->class) == end) {
        end = (u64)block;
        return;
    }
    block->next = freed[block->class];
    freed[block->class] = block;
}

/* What is answered for no bytes, and where there are none left: it isn't null, and is never read. */
static u8 nothing[16] __attribute__((aligned(16)));

Tried rattle_alloc(u64 n, u64 align) {
    if (n == 0) return (Tried){1, nothing};
    void *p = take(n);
    return p ? (Tried){1, p} : (Tried){0, nothing};
}

Tried rattle_realloc(void *p, u64 kept, u64 n, u64 align) {
    if (p == nothing) return rattle_alloc(n, align);
    Block *block = (Block *)((u8 *)p - HEAD);
    u64 has = size_of(block->class);
    if (n <= has && n > 0 && class_of(n) == block->class) return (Tried){1, p};
    if (n > has && n <= MOST && (u64)p + has == end) {
        u64 class = class_of(n);
        if (!ends_at((u64)p + size_of(class))) return (Tried){0, nothing};
        block->class = class;
        return (Tried){1, p};
    }
    Tried made = rattle_alloc(n, align);
    if (!made.ok) return made;
    __builtin_memcpy(made.p, p, kept < n ? kept : n);
    give(p);
    return made;
}

void rattle_dealloc(void *p) {
    if (p != nothing) give(p);
}

/* For the page: room for what it passes, and the most bytes that were in use. */
__attribute__((export_name("host_alloc"))) void *host_alloc(u64 n) {
    return n ? take(n) : nothing;
}

__attribute__((export_name("host_free"))) void host_free(void *p) {
    rattle_dealloc(p);
}

__attribute__((export_name("host_peak"))) u64 host_peak(void) {
    return peak;
}
