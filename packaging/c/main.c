/* igesolid as one program over the library: cc -O2 dist/igesolid.c packaging/c/main.c -o igesolid. It has the commands of the three proved
 * programs and `page`, takes - for standard input, and says on standard error what the launcher says. With -DCALL=run, where or repair it is
 * one of the three instead, which says nothing there. It reads the files that the words name, as the proved program does, and writes the
 * text. It isn't proved, only tested. */
#include "system.h"
#include "igesolid.h"
#include "forms.h"
#include <errno.h>

#define FILE_LIMIT 164000000u
#define CERTIFICATE_LIMIT 536870912u
enum { READ_FAILED = 4, WRITE_FAILED = 5, NO_PROGRAM = 125 };

#ifndef CALL
#define CALL all
#endif
#define JOIN_(a, b) a##b
#define JOIN(a, b) JOIN_(a, b)
enum { IS_run, IS_where, IS_repair, IS_all };
#define KIND JOIN(IS_, CALL)
static const char *const programs[] = {"igesolid", "igesolid-where", "igesolid-repair", NULL};

typedef struct {
    uint8_t *bytes;
    size_t length;
    int status;  /* 0, or why the bytes can't be had */
    int failure; /* then what the system said */
    int is_open; /* whether the file could be opened */
} Bytes;

/* A run: its words, in UTF-8 and as the system gave them; what they mean; what was read, and what is answered. */
typedef struct {
    int count;
    char **words;
    const letter *const *names;
    const Row *row;  /* of the first word, or NULL */
    const Row *form; /* of all words, or NULL */
    Inputs at;
    Bytes file, certificate;
    igesolid_text text;
    int status;
} Run;

static int is_standard_input(const letter *name) {
    return KIND == IS_all && name[0] == '-' && name[1] == 0;
}

/* More room for bytes; twice as much, up to one byte more than the limit, which is enough for the answer to a larger file. */
static int has_more_room(Bytes *all, size_t *room, size_t limit) {
    size_t wanted = *room < 65536 ? 65536 : 2 * *room;
    if (wanted > limit + 1) wanted = limit + 1;
    uint8_t *more = realloc(all->bytes, wanted);
    if (!more) return 0;
    all->bytes = more, *room = wanted;
    return 1;
}

static Bytes read_file(const letter *name, size_t limit) {
    Bytes all = {NULL, 0, 0, 0, 0};
    size_t room = 0;
    int in = is_standard_input(name) ? 0 : opened(name);
    all.is_open = in >= 0;
    if (in < 0) all.status = READ_FAILED, all.failure = errno;
    while (all.status == 0 && all.length <= limit) {
        if (all.length == room && !has_more_room(&all, &room, limit)) {
            all.status = IGESOLID_NO_MEMORY;
            break;
        }
        long count = got(in, all.bytes + all.length, room - all.length);
        if (count == 0) break;
        if (count > 0) all.length += (size_t)count;
        else if (errno != EINTR) all.status = READ_FAILED, all.failure = errno;
    }
    if (in >= 0 && !is_standard_input(name)) closed(in);
    return all;
}

static int write_all(const uint8_t *bytes, size_t length) {
    while (length > 0) {
        long count = put(bytes, length);
        if (count == 0 || (count < 0 && errno != EINTR)) return WRITE_FAILED;
        if (count > 0) bytes += count, length -= (size_t)count;
    }
    return 0;
}

/* The words with a line feed between each two; where there are none, a byte that isn't UTF-8, which says so. No listed word holds a line
 * feed, and of a file's name only its place counts. */
static char *joined(int count, char **words) {
    size_t length = 2;
    for (int k = 0; k < count; k++) length += strlen(words[k]) + 1;
    char *text = malloc(length), *to = text;
    if (!text) return NULL;
    for (int k = 0; k < count; k++) {
        if (k > 0) *to++ = '\n';
        for (const char *it = words[k]; *it; it++) *to++ = *it == '\n' ? ' ' : *it;
    }
    if (count == 0) *to++ = (char)0xff;
    *to = 0;
    return text;
}

/* Asks the library, with what could be read; sets the text. */
static int asked(int kind, const char *words, Run *run) {
    const uint8_t *told = (const uint8_t *)words, *none = (const uint8_t *)"";
    size_t count = strlen(words), length = run->file.status == 0 ? run->file.length : 0;
    const uint8_t *file = length > 0 ? run->file.bytes : none;
    size_t more = run->certificate.status == 0 ? run->certificate.length : 0;
    if (kind == IS_where) return (int)igesolid_where(told, count, file, length, &run->text);
    if (kind == IS_repair) return (int)igesolid_repair(told, count, file, length, &run->text);
    return (int)igesolid_run(told, count, file, length, more > 0 ? run->certificate.bytes : none, more, &run->text);
}

/* The answer to words that are given to the library as a text. Words of no listed form read no file, and whether a certificate can be read
 * counts only for a file that is one. */
static int answered(int kind, const char *words, Run *run) {
    int status = asked(kind, words, run);
    if (status == IGESOLID_USAGE || run->at.file < 0) return status;
    igesolid_free(&run->text);
    run->file = read_file(run->names[run->at.file], FILE_LIMIT);
    if (run->file.status != 0) return run->file.status;
    if (run->at.certificate >= 0) run->certificate = read_file(run->names[run->at.certificate], CERTIFICATE_LIMIT);
    status = asked(kind, words, run);
    if (run->certificate.status == 0 || status == IGESOLID_BAD_FILE || status == IGESOLID_TOO_LARGE) return status;
    igesolid_free(&run->text);
    return run->certificate.status;
}

static int dashes(const Run *run) {
    int count = 0;
    for (int k = 0; k < run->count; k++) count += strcmp(run->words[k], "-") == 0;
    return count;
}

/* A run by the library, whose words begin at the given one. Standard input can't be read twice, so given twice it is no form of words. */
static int performed(int kind, int first, Run *run) {
    int are_words = KIND != IS_all || dashes(run) < 2;
    char *words = are_words ? joined(run->count - first, run->words + first) : joined(0, NULL);
    if (!words) return IGESOLID_NO_MEMORY;
    int status = answered(kind, words, run);
    free(words);
    return write_all(run->text.bytes, run->text.length) == 0 ? status : WRITE_FAILED;
}

/* Sets the form of the words, of those of one program, or of one kind. A program may be given the words behind the first one alone. */
static void find_form(Run *run, const char *kind, const char *program) {
    for (const Row *row = rows; row->kind && !run->form; row++) {
        if (strcmp(row->kind, kind) != 0 || (program && !is_of(row, program))) continue;
        int skipped = program && takes_rest(program) ? (int)strcspn(row->words, " ") : 0;
        if (fits(row->words + skipped, run->count, run->words, &run->at)) run->form = row;
    }
    if (!run->form) run->at = (Inputs){-1, -1};
}

#include "causes.h"
#include "page.h"
#include "words.h"

/* A run of the program of all commands. */
static int judged(Run *run) {
    const Row *row = run->row = looked_up(run->count, run->words);
    const char *kind = row ? row->kind : "command";
    find_form(run, kind, NULL);
    if (strcmp(kind, "python") == 0) return refused(run);
    if (strcmp(kind, "shell") == 0) return write_page(run);
    for (int k = IS_where; row && k <= IS_repair; k++)
        if (is_of(row, programs[k])) return performed(k, takes_rest(programs[k]), run);
    return performed(IS_run, 0, run);
}

static int done(Run *run) {
    run->text = (igesolid_text)IGESOLID_NO_TEXT;
    run->at = (Inputs){-1, -1};
    if (KIND != IS_all) {
        find_form(run, "command", programs[KIND]);
        return performed(KIND, 0, run);
    }
    if (run->count == 0 || is_own_word(run->words[0])) return answer_word(run);
    run->status = judged(run);
    explain(run);
    return run->status;
}

static int begun(int count, const letter *const *names) {
    Run run = {.count = count, .names = names};
    run.words = malloc(((size_t)count + 1) * sizeof *run.words);
    if (!run.words) return IGESOLID_NO_MEMORY;
    for (int k = 0; k < count; k++) {
        run.words[k] = in_utf8(names[k]);
        if (!run.words[k]) return IGESOLID_NO_MEMORY;
    }
    prepare();
    return done(&run);
}

#ifdef _WIN32
int wmain(int count, wchar_t **names) {
#else
int main(int count, char **names) {
#endif
    return begun(count > 0 ? count - 1 : 0, (const letter *const *)(count > 0 ? names + 1 : names));
}
