/* caps EXAMPLES: a heap with a cap. Each allocation of a call fails in turn, and all after it: the status is 6, there is no text, and no
 * block is left; where none fails the answer is the same as ever. Then caps in bytes. Built with the wrapped calls of the linker. */
#include "files.h"

void *__real_malloc(size_t n);
void *__real_realloc(void *p, size_t n);
void __real_free(void *p);
void *__wrap_malloc(size_t n);
void *__wrap_realloc(void *p, size_t n);
void __wrap_free(void *p);

#define HEAD 16

static size_t calls, failing_from, live, blocks, most;

static void reset(size_t from, size_t cap) {
    calls = 0;
    failing_from = from;
    most = cap;
}

static int refuses(size_t had, size_t n) {
    calls++;
    return (failing_from && calls >= failing_from) || (most && live - had + n > most);
}

/* A block with its size before it. */
void *__wrap_malloc(size_t n) {
    if (refuses(0, n)) return NULL;
    uint8_t *p = __real_malloc(n + HEAD);
    if (!p) return NULL;
    memcpy(p, &n, sizeof n);
    live += n;
    blocks++;
    return p + HEAD;
}

void *__wrap_realloc(void *given, size_t n) {
    size_t had;
    if (!given) return __wrap_malloc(n);
    uint8_t *p = (uint8_t *)given - HEAD;
    memcpy(&had, p, sizeof had);
    if (refuses(had, n)) return NULL;
    p = __real_realloc(p, n + HEAD);
    if (!p) return NULL;
    memcpy(p, &n, sizeof n);
    live += n - had;
    return p + HEAD;
}

void __wrap_free(void *given) {
    size_t had;
    if (!given) return;
    uint8_t *p = (uint8_t *)given - HEAD;
    memcpy(&had, p, sizeof had);
    live -= had;
    blocks--;
    __real_free(p);
}

static uint32_t ask(const char *words, Bytes file, Bytes certificate, igesolid_text *text) {
    return *words == '-' ? where(words, file, text) : run(words, file, certificate, text);
}

static void check(const char *name, const char *words, Bytes file, Bytes certificate) {
    igesolid_text whole = IGESOLID_NO_TEXT, text = IGESOLID_NO_TEXT;
    size_t before = blocks, had = live;
    reset(0, 0);
    uint32_t status = ask(words, file, certificate, &whole);
    size_t all = calls, kept = blocks, kept_bytes = live;
    size_t refused = 0, wrong = 0, at_caps = 0;
    for (size_t k = 1; k <= all + 1; k++) {
        reset(k, 0);
        uint32_t now = ask(words, file, certificate, &text);
        int is_last = k == all + 1;
        int holds = is_last ? now == status && text.length == whole.length && memcmp(text.bytes, whole.bytes, text.length) == 0
                            : now == IGESOLID_NO_MEMORY && text.length == 0 && text.bytes != NULL && blocks == kept && live == kept_bytes;
        refused += !is_last && holds;
        wrong += !holds;
        igesolid_free(&text);
    }
    for (size_t cap = 1; cap < (size_t)1 << 30; cap += cap / 3 + 1) {
        reset(0, kept_bytes + cap);
        uint32_t now = ask(words, file, certificate, &text);
        int holds = now == IGESOLID_NO_MEMORY ? text.length == 0 && blocks == kept : now == status && text.length == whole.length;
        at_caps += now == IGESOLID_NO_MEMORY;
        wrong += !holds;
        igesolid_free(&text);
    }
    reset(0, 0);
    igesolid_free(&whole);
    printf("%s: each of %zu allocations, and caps in bytes\t%s\n", name, all, wrong == 0 && refused == all && at_caps > 0 ? "yes" : "no");
    printf("%s: no block is left\t%s\n", name, blocks == before && live == had ? "yes" : "no");
}

int main(int count, char **given) {
    if (count != 2) return 2;
    Bytes two = bytes_of(given[1], "two_solids.igs"), open = bytes_of(given[1], "no/fail_pair.igs"), bad = bytes_of(given[1], "no/bad_length.igs");
    Bytes sheet = bytes_of(given[1], "sheet.igs"), certificate = bytes_of(given[1], "two_solids.cert3"), none = {(uint8_t *)"", 0};
    check("solids", "solids\n-", two, none);
    check("certify", "certify\n-\n11", two, none);
    check("certify all", "certify\n-\nall", two, none);
    check("verify", "verify\n-\n-", two, certificate);
    check("extract", "extract\n-\n11", two, none);
    check("compact", "compact\n-\n11", two, none);
    check("open", "open\n-\n1", sheet, none);
    check("orient", "orient\n-\n11", two, none);
    check("no", "certify\n-\n1", open, none);
    check("a bad file", "solids\n-", bad, none);
    check("usage", "nonsense", two, none);
    check("where", "-\n1", open, none);
    check("where of all", "-", two, none);
    check("where of a bad file", "-\n1", bad, none);
    Bytes all[] = {two, open, bad, sheet, certificate};
    for (size_t k = 0; k < sizeof all / sizeof *all; k++) free(all[k].bytes);
    return 0;
}
