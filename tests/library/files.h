/* The bytes of a file, for the tests of the library. */
#include "igesolid.h"
#include <stdio.h>
#include <stdlib.h>
#include <string.h>

typedef struct {
    uint8_t *bytes;
    size_t length;
} Bytes;

static Bytes bytes_of(const char *folder, const char *name) {
    char path[4096];
    snprintf(path, sizeof path, "%s/%s", folder, name);
    FILE *in = fopen(path, "rb");
    Bytes all = {malloc(1), 0};
    if (!in || !all.bytes || fseek(in, 0, SEEK_END) != 0) exit(4);
    all.length = (size_t)ftell(in);
    rewind(in);
    free(all.bytes);
    all.bytes = malloc(all.length + 1);
    if (!all.bytes || fread(all.bytes, 1, all.length, in) != all.length) exit(4);
    fclose(in);
    return all;
}

static inline uint32_t run(const char *words, Bytes file, Bytes certificate, igesolid_text *text) {
    return igesolid_run((const uint8_t *)words, strlen(words), file.bytes, file.length, certificate.bytes, certificate.length, text);
}

static inline uint32_t where(const char *words, Bytes file, igesolid_text *text) {
    return igesolid_where((const uint8_t *)words, strlen(words), file.bytes, file.length, text);
}
