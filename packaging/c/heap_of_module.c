/* The heap, as packaging/c/heap.c has it. Where a block can't be had its address is that of `nothing`, which is never read. */
static const u8 nothing = 0;

static u64 address(B b, const void *p) { return (u64)((B)p - b); }

static void tried(B b, u64 answer, void *p) {
    put64(b, answer, p != NULL);
    put64(b, answer + 8, p ? address(b, p) : address(b, &nothing));
}

/* malloc has no block of a size that fits no pointer's difference. */
static size_t sized(u64 n) { return n > PTRDIFF_MAX ? SIZE_MAX : (size_t)n; }

static void rattle_alloc(B b, u64 answer, u64 n, u64 align) {
    tried(b, answer, malloc(sized(n ? n : align)));
}

static void rattle_realloc(B b, u64 answer, u64 p, u64 kept, u64 n, u64 align) {
    (void)kept;
    tried(b, answer, realloc(PLACE(b, p), sized(n ? n : align)));
}

static void rattle_dealloc(B b, u64 p) { free(PLACE(b, p)); }
