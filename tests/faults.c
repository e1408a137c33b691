// A library to preload that lets one call of the C library fail, or reads and writes in small pieces, for tests/faults.py.
//
//   FAULT_CALL    the calls that count: memory, open, read or write; without it none fails
//   FAULT_NUMBER  the number, from 1, of the call that fails; where it is followed by +, each later one fails too
//   FAULT_ERROR   the errno with which open, read or write fails (EIO)
//   FAULT_SIZE    the most bytes that one read or write takes
//   FAULT_SEED    with it each read and write takes at random from one byte to FAULT_SIZE
//   FAULT_REPORT  a descriptor on which a byte is written once a call was made to fail
//
// It covers every call of the C library with which a program could take memory, open, read or write, so that none escapes.
#define _GNU_SOURCE
#include <dlfcn.h>
#include <errno.h>
#include <fcntl.h>
#include <stdarg.h>
#include <stdlib.h>
#include <string.h>
#include <sys/mman.h>
#include <sys/syscall.h>
#include <sys/types.h>
#include <sys/uio.h>
#include <unistd.h>

enum kind { MEMORY, OPEN, READ, WRITE, KINDS };
static const char *const kinds[KINDS] = {"memory", "open", "read", "write"};

static int failing = -1, onward, fault_errno = EIO, report = -1;
static unsigned long number, count;
static size_t size = (size_t)-1;
static unsigned long seed;

static unsigned long number_of(const char *name, unsigned long otherwise) {
    const char *told = getenv(name);
    return told ? strtoul(told, NULL, 10) : otherwise;
}

__attribute__((constructor)) static void begin(void) {
    const char *call = getenv("FAULT_CALL"), *told = getenv("FAULT_NUMBER");
    for (int kind = 0; call && kind < KINDS; kind++)
        if (!strcmp(call, kinds[kind]))
            failing = kind;
    number = number_of("FAULT_NUMBER", 0);
    onward = told && strchr(told, '+');
    fault_errno = (int)number_of("FAULT_ERROR", EIO);
    size = number_of("FAULT_SIZE", (size_t)-1);
    seed = number_of("FAULT_SEED", 0);
    report = (int)number_of("FAULT_REPORT", (unsigned long)-1);
}

static int fails(int kind) {
    if (kind != failing)
        return 0;
    count++;
    if (count != number && !(onward && count > number))
        return 0;
    if (report >= 0)
        syscall(SYS_write, report, "x", 1);
    errno = kind == MEMORY ? ENOMEM : fault_errno;
    return 1;
}

static size_t at_most(size_t told) {
    size_t most = size;
    if (seed) {
        seed = seed * 6364136223846793005ul + 1442695040888963407ul;
        most = 1 + (seed >> 33) % size;
    }
    return told < most ? told : most;
}

// The next definition of a call, that of the C library.
#define NEXT(name) \
    static __typeof__(name) *next; \
    if (!next) \
        next = (__typeof__(name) *)dlsym(RTLD_NEXT, #name)

void *malloc(size_t bytes) {
    NEXT(malloc);
    return fails(MEMORY) ? NULL : next(bytes);
}
void *realloc(void *block, size_t bytes) {
    NEXT(realloc);
    return fails(MEMORY) ? NULL : next(block, bytes);
}
void *reallocarray(void *block, size_t items, size_t bytes) {
    NEXT(reallocarray);
    return fails(MEMORY) ? NULL : next(block, items, bytes);
}
// dlsym may call calloc, so it isn't asked for the next one.
void *calloc(size_t items, size_t bytes) {
    extern void *__libc_calloc(size_t, size_t);
    return fails(MEMORY) ? NULL : __libc_calloc(items, bytes);
}
void *aligned_alloc(size_t alignment, size_t bytes) {
    NEXT(aligned_alloc);
    return fails(MEMORY) ? NULL : next(alignment, bytes);
}
void *memalign(size_t alignment, size_t bytes) {
    return aligned_alloc(alignment, bytes);
}
int posix_memalign(void **block, size_t alignment, size_t bytes) {
    NEXT(posix_memalign);
    return fails(MEMORY) ? ENOMEM : next(block, alignment, bytes);
}
void *mmap(void *at, size_t bytes, int protection, int flags, int file, off_t offset) {
    NEXT(mmap);
    return fails(MEMORY) ? MAP_FAILED : next(at, bytes, protection, flags, file, offset);
}
void *mremap(void *at, size_t bytes, size_t wanted, int flags, ...) {
    va_list more;
    va_start(more, flags);
    void *place = flags & MREMAP_FIXED ? va_arg(more, void *) : NULL;
    va_end(more);
    return fails(MEMORY) ? MAP_FAILED : (void *)syscall(SYS_mremap, at, bytes, wanted, flags, place);
}
void *sbrk(intptr_t bytes) {
    NEXT(sbrk);
    return fails(MEMORY) ? (void *)-1 : next(bytes);
}

#define MODE(flags) \
    va_list more; \
    va_start(more, flags); \
    mode_t mode = flags & (O_CREAT | O_TMPFILE) ? va_arg(more, mode_t) : 0; \
    va_end(more)

int open(const char *path, int flags, ...) {
    NEXT(open);
    MODE(flags);
    return fails(OPEN) ? -1 : next(path, flags, mode);
}
int open64(const char *path, int flags, ...) {
    NEXT(open64);
    MODE(flags);
    return fails(OPEN) ? -1 : next(path, flags, mode);
}
int openat(int folder, const char *path, int flags, ...) {
    NEXT(openat);
    MODE(flags);
    return fails(OPEN) ? -1 : next(folder, path, flags, mode);
}

ssize_t read(int file, void *to, size_t bytes) {
    NEXT(read);
    return fails(READ) ? -1 : next(file, to, at_most(bytes));
}
ssize_t pread(int file, void *to, size_t bytes, off_t offset) {
    NEXT(pread);
    return fails(READ) ? -1 : next(file, to, at_most(bytes), offset);
}
ssize_t readv(int file, const struct iovec *to, int pieces) {
    NEXT(readv);
    return fails(READ) ? -1 : next(file, to, pieces);
}
ssize_t write(int file, const void *from, size_t bytes) {
    NEXT(write);
    return fails(WRITE) ? -1 : next(file, from, at_most(bytes));
}
// The name under which the C library's own start calls it.
ssize_t __write(int file, const void *from, size_t bytes) {
    return write(file, from, bytes);
}
ssize_t pwrite(int file, const void *from, size_t bytes, off_t offset) {
    NEXT(pwrite);
    return fails(WRITE) ? -1 : next(file, from, at_most(bytes), offset);
}
ssize_t writev(int file, const struct iovec *from, int pieces) {
    NEXT(writev);
    return fails(WRITE) ? -1 : next(file, from, pieces);
}
