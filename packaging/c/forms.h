/* The table of commands, for main.c: what the words of a run mean. */
#include "../../dist/program.h"

/* Sets the next of the parts that spaces separate; whether there is one. */
static int next_part(const char **rest, const char **part, size_t *length) {
    while (**rest == ' ') ++*rest;
    *part = *rest;
    while (**rest && **rest != ' ') ++*rest;
    *length = (size_t)(*rest - *part);
    return *length > 0;
}

static int is_part(const char *part, size_t length, const char *word) {
    return strlen(word) == length && memcmp(part, word, length) == 0;
}

static int begins(const char *part, size_t length, const char *word) {
    return length >= strlen(word) && memcmp(part, word, strlen(word)) == 0;
}

static int is_one_of(const char *word, const char *const *words) {
    while (*words && strcmp(word, *words) != 0) words++;
    return *words != NULL;
}

static int is_of_digits(const char *word) {
    return *word && word[strspn(word, "0123456789")] == 0;
}

static int opens_with(const Row *row, const char *word) {
    const char *rest = row->words, *part;
    size_t length;
    return next_part(&rest, &part, &length) && is_part(part, length, word);
}

/* Where a program's name stands in a row: all, or the first of several. */
static int is_of(const Row *row, const char *program) {
    return begins(row->owner, strlen(row->owner), program) && strchr(",", row->owner[strlen(program)]);
}

/* Whether a program is given the words behind the first one alone. */
static int takes_rest(const char *program) {
    for (const Row *row = rows; row->kind; row++)
        if (strcmp(row->kind, "program") == 0 && is_of(row, program)) return strcmp(row->words, "rest") == 0;
    return 0;
}

/* Whether a word is the number of a remedy. */
static int is_remedy(const char *word) {
    return strlen(word) == 1 && *word >= '1' && *word <= '6';
}

/* The places of a file and of a certificate among words; -1 where none is. */
typedef struct {
    int file, certificate;
} Inputs;

/* Whether words are those of a form, and which of them are names. Words that are none get the usage line from the library. */
static int fits(const char *form, int count, char **words, Inputs *inputs) {
    const char *rest = form, *part;
    size_t length;
    int k = 0;
    *inputs = (Inputs){-1, -1};
    for (; next_part(&rest, &part, &length); k++) {
        if (is_part(part, length, "..")) return 1;
        if (k == count) return 0;
        if (memchr(part, '.', length) && begins(part + length - 2, 2, "..")) return 1;
        if (is_part(part, length, "FILE")) inputs->file = k;
        else if (is_part(part, length, "CERT")) inputs->certificate = k;
        else if (is_part(part, length, "N") ? !is_of_digits(words[k]) : is_part(part, length, "R") ? !is_remedy(words[k]) : !is_part(part, length, words[k])) return 0;
    }
    return k == count;
}

/* What the first word means: the row of its form, or the last of several. A form whose second word is an option is meant where that stands. */
static const Row *looked_up(int count, char **words) {
    const Row *found = NULL;
    const char *option = count > 1 && strncmp(words[1], "--", 2) == 0 ? words[1] : NULL;
    for (const Row *row = rows; row->kind && count > 0; row++) {
        static const char *const commands[] = {"command", "python", "shell", NULL};
        const char *rest = row->words, *part;
        size_t length;
        if (!is_one_of(row->kind, commands) || !opens_with(row, words[0])) continue;
        next_part(&rest, &part, &length);
        int is_option = next_part(&rest, &part, &length) && begins(part, length, "--");
        if (is_option && !(option && is_part(part, length, option))) continue;
        found = row;
        if (is_option || !option) return found;
    }
    return found;
}
