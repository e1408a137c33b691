/* What main.c asks of the system, on POSIX and on Windows. There names and words are UTF-16, which the library gets as UTF-8, and nothing is
 * changed at the ends of lines. */
#ifdef _WIN32
#include <fcntl.h>
#include <io.h>
#include <stdlib.h>
#include <string.h>
#include <wchar.h>
#include <windows.h>

typedef wchar_t letter;

int _dowildcard = 0; /* mingw-w64's start is not to open patterns among the words */

/* A name as it is opened: beyond the old limit of its length only one with this prefix can be. NULL where there is no memory. */
static wchar_t *long_name(const wchar_t *name) {
    static const wchar_t prefix[] = L"\\\\?\\", of_server[] = L"\\\\?\\UNC";
    DWORD size = GetFullPathNameW(name, 0, NULL, NULL);
    wchar_t *made = malloc((wcslen(name) + size + 16) * sizeof *made);
    if (!made || size < MAX_PATH) return made ? wcscpy(made, name) : NULL;
    wchar_t *whole = made + 8;
    GetFullPathNameW(name, size, whole, NULL);
    if (wcsncmp(whole, L"\\\\?\\", 4) == 0 || wcsncmp(whole, L"\\\\.\\", 4) == 0) return wcscpy(made, name);
    int is_of_server = wcsncmp(whole, L"\\\\", 2) == 0;
    const wchar_t *first = is_of_server ? of_server : prefix;
    size_t length = wcslen(first);
    memmove(made + length, whole + is_of_server, (wcslen(whole + is_of_server) + 1) * sizeof *made);
    return memcpy(made, first, length * sizeof *made);
}

static int opened(const letter *name) {
    wchar_t *whole = long_name(name);
    int in = whole ? _wopen(whole, _O_RDONLY | _O_BINARY | _O_NOINHERIT | _O_SEQUENTIAL) : -1;
    free(whole);
    return in;
}

static int has_attribute(const letter *name, DWORD wanted) {
    wchar_t *whole = long_name(name);
    DWORD found = whole ? GetFileAttributesW(whole) : INVALID_FILE_ATTRIBUTES;
    free(whole);
    return found != INVALID_FILE_ATTRIBUTES && ((found & FILE_ATTRIBUTE_DIRECTORY) == wanted);
}

static int is_folder(const letter *name) {
    return has_attribute(name, FILE_ATTRIBUTE_DIRECTORY);
}

static int is_file(const letter *name) {
    return has_attribute(name, 0);
}

static long got(int in, void *to, size_t most) {
    return _read(in, to, (unsigned)(most < 1 << 24 ? most : 1 << 24));
}

/* A console takes only so much at a time. */
static long put(const void *from, size_t most) {
    size_t limit = _isatty(1) ? 1 << 13 : 1 << 24;
    return _write(1, from, (unsigned)(most < limit ? most : limit));
}

static void closed(int in) {
    _close(in);
}

/* A word in UTF-8; half of a pair of UTF-16 becomes U+FFFD, which stands in no listed word. NULL where there is no memory. */
static char *in_utf8(const letter *word) {
    int size = WideCharToMultiByte(CP_UTF8, 0, word, -1, NULL, 0, NULL, NULL);
    char *made = size > 0 ? malloc((size_t)size) : NULL;
    if (made) WideCharToMultiByte(CP_UTF8, 0, word, -1, made, size, NULL, NULL);
    return made;
}

/* Writes to standard error: to a console as UTF-16, whatever its code page. */
static void complain(const char *text, size_t length) {
    HANDLE out = GetStdHandle(STD_ERROR_HANDLE);
    DWORD mode, written;
    wchar_t wide[2048];
    int count = MultiByteToWideChar(CP_UTF8, 0, text, (int)length, wide, 2048);
    if (count > 0 && GetConsoleMode(out, &mode)) WriteConsoleW(out, wide, (DWORD)count, &written, NULL);
    else WriteFile(out, text, (DWORD)length, &written, NULL);
}

static int is_separator(char it) {
    return it == '/' || it == '\\' || it == ':';
}

static void prepare(void) {
    _setmode(0, _O_BINARY);
    _setmode(1, _O_BINARY);
}
#else
#ifndef _POSIX_C_SOURCE
#define _POSIX_C_SOURCE 200809L
#endif
#include <fcntl.h>
#include <signal.h>
#include <stdlib.h>
#include <string.h>
#include <sys/stat.h>
#include <unistd.h>

typedef char letter;

static int opened(const letter *name) {
    return open(name, O_RDONLY | O_CLOEXEC);
}

static int is_folder(const letter *name) {
    struct stat found;
    return (strcmp(name, "-") == 0 ? fstat(0, &found) : stat(name, &found)) == 0 && S_ISDIR(found.st_mode);
}

static int is_file(const letter *name) {
    struct stat found;
    return stat(name, &found) == 0 && S_ISREG(found.st_mode);
}

static long got(int in, void *to, size_t most) {
    return (long)read(in, to, most < 1 << 30 ? most : 1 << 30);
}

static long put(const void *from, size_t most) {
    return (long)write(1, from, most < 1 << 30 ? most : 1 << 30);
}

static void closed(int in) {
    close(in);
}

static char *in_utf8(const letter *word) {
    size_t size = strlen(word) + 1;
    char *made = malloc(size);
    return made ? memcpy(made, word, size) : NULL;
}

static void complain(const char *text, size_t length) {
    while (length > 0) {
        long count = (long)write(2, text, length);
        if (count <= 0) return;
        text += count, length -= (size_t)count;
    }
}

static int is_separator(char it) {
    return it == '/';
}

/* Where nobody reads standard output any more, a write fails and the status tells. */
static void prepare(void) {
    signal(SIGPIPE, SIG_IGN);
}
#endif
