/* loaded LIBRARY: loads a shared library, as a wheel has it, and answers the requests of standard input. A request is a line: run, where or
 * repair, the words with a space between each two, and a file, with a tab between them. It prints the status, the length of the text, and a
 * checksum of it, Adler-32. */
#include "igesolid.h"
#include <stdio.h>
#include <stdlib.h>
#include <string.h>
#ifdef _WIN32
#include <fcntl.h>
#include <io.h>
#include <windows.h>
static void *found(void *library, const char *name) { return (void *)GetProcAddress(library, name); }
static void *opened(const char *path) { return LoadLibraryA(path); }
#else
#include <dlfcn.h>
static void *found(void *library, const char *name) { return dlsym(library, name); }
static void *opened(const char *path) { return dlopen(path, RTLD_NOW); }
#endif

typedef uint32_t one_file(const uint8_t *, size_t, const uint8_t *, size_t, igesolid_text *);
typedef uint32_t two_files(const uint8_t *, size_t, const uint8_t *, size_t, const uint8_t *, size_t, igesolid_text *);
static uint8_t bytes[1 << 24];

static uint32_t sum_of(igesolid_text text) {
    uint32_t low = 1, high = 0;
    for (size_t k = 0; k < text.length; k++) {
        low = (low + text.bytes[k]) % 65521;
        high = (high + low) % 65521;
    }
    return high << 16 | low;
}

int main(int count, char **given) {
    static char line[4096];
    void *library = count == 2 ? opened(given[1]) : NULL;
    if (!library) return 2;
    two_files *run = (two_files *)found(library, "igesolid_run");
    one_file *where = (one_file *)found(library, "igesolid_where"), *repair = (one_file *)found(library, "igesolid_repair");
    void (*give_back)(igesolid_text *) = (void (*)(igesolid_text *))found(library, "igesolid_free");
    if (!run || !where || !repair || !give_back) return 3;
    while (fgets(line, sizeof line, stdin)) {
        char *call = strtok(line, "\t"), *words = strtok(NULL, "\t"), *path = strtok(NULL, "\t\r\n");
        FILE *file = fopen(path, "rb");
        size_t length = file ? fread(bytes, 1, sizeof bytes, file) : 0;
        if (!file || fclose(file)) return 4;
        for (char *it = words; *it; it++)
            if (*it == ' ') *it = '\n';
        const uint8_t *told = (const uint8_t *)words;
        igesolid_text text = IGESOLID_NO_TEXT;
        uint32_t status = strcmp(call, "run") == 0 ? run(told, strlen(words), bytes, length, bytes, 0, &text)
            : strcmp(call, "where") == 0 ? where(told, strlen(words), bytes, length, &text)
                                         : repair(told, strlen(words), bytes, length, &text);
        printf("%u %u %u\n", (unsigned)status, (unsigned)text.length, (unsigned)sum_of(text));
        give_back(&text);
    }
    return 0;
}
