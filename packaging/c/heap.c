/* The heap of the library: what the proved code calls for memory, over the C library's malloc, as the kit's own C has it; and the
 * end of a text, which the proved code gave away for good. On Windows C gives a struct back in another way than the proved code
 * expects, so there the heap is packaging/windows/heap.ll. */
#include "igesolid.h"
#include <stdlib.h>

#ifndef _WIN32
typedef struct {
    uint64_t ok;
    void *p;
} Tried;

/* What is answered where there is no block. It isn't null, and is never read. */
static const char nothing;

static Tried tried(void *p) {
    return p ? (Tried){1, p} : (Tried){0, (void *)&nothing};
}

Tried rattle_alloc(size_t n, size_t align) {
    return tried(malloc(n ? n : align));
}

Tried rattle_realloc(void *p, size_t kept, size_t n, size_t align) {
    (void)kept;
    return tried(realloc(p, n ? n : align));
}

void rattle_dealloc(void *p) {
    free(p);
}
#endif

/* A text has a block exactly where it has bytes. */
void igesolid_free(igesolid_text *text) {
    if (text->length > 0) free((void *)text->bytes);
    *text = (igesolid_text)IGESOLID_NO_TEXT;
}
