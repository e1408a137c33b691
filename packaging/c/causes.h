/* Why a run failed, and what is wrong with its words, on standard error, for main.c: what the launcher says (launcher/causes.sh, usage.sh).
 * tests/run launcher compares the two. */
#include <stdio.h>

typedef struct {
    char *bytes;
    size_t length, room;
} Line;

static void add_bytes(Line *line, const char *bytes, size_t length) {
    if (line->length + length > line->room) {
        size_t room = 2 * (line->length + length) + 256;
        char *more = realloc(line->bytes, room);
        if (!more) return;
        line->bytes = more, line->room = room;
    }
    memcpy(line->bytes + line->length, bytes, length);
    line->length += length;
}

static void add(Line *line, const char *text) {
    add_bytes(line, text, strlen(text));
}

/* How many bytes a character of UTF-8 has here; 0 where there is none. */
static size_t character(const unsigned char *text) {
    static const unsigned least[] = {0, 0, 0x80, 0x800, 0x10000};
    size_t length = *text < 0x80 ? 1 : *text >> 5 == 6 ? 2 : *text >> 4 == 14 ? 3 : *text >> 3 == 30 ? 4 : 0;
    unsigned code = length == 1 ? *text : *text & (0x7fu >> length);
    for (size_t k = 1; k < length; k++) {
        if (text[k] >> 6 != 2) return 0;
        code = code << 6 | (text[k] & 63u);
    }
    return length > 0 && code >= least[length] && code < 0x110000 && code >> 11 != 0x1b ? length : 0;
}

static int is_utf8(const char *text) {
    const unsigned char *it = (const unsigned char *)text;
    while (*it) {
        size_t length = character(it);
        if (length == 0) return 0;
        it += length;
    }
    return 1;
}

/* Says a line, in which no control character reaches the terminal: of ASCII, and those of ISO 6429, also as bytes outside of UTF-8. */
static void say(Line *line) {
    Line shown = {NULL, 0, 0};
    add_bytes(line, "", 1);
    if (!line->bytes) return;
    int is_text = is_utf8(line->bytes);
    add(&shown, "igesolid: ");
    for (const unsigned char *it = (const unsigned char *)line->bytes; *it; it++) {
        int is_c1 = is_text && it[0] == 0xc2 && it[1] >= 0x80 && it[1] < 0xa0;
        int is_control = *it < 32 || *it == 127 || is_c1 || (!is_text && *it >= 0x80 && *it < 0xa0);
        add_bytes(&shown, is_control ? "?" : (const char *)it, 1);
        it += is_c1;
    }
    add(&shown, "\n");
    complain(shown.bytes, shown.length);
    free(shown.bytes);
    free(line->bytes);
}

/* Says texts up to NULL as one line. */
static void say_texts(const char *const *texts) {
    Line line = {NULL, 0, 0};
    while (*texts) add(&line, *texts++);
    say(&line);
}

#define SAY(...) say_texts((const char *const[]){__VA_ARGS__, NULL})

static const char *name_of(const char *word) {
    return strcmp(word, "-") == 0 ? "standard input" : *word ? word : "an empty name";
}

static const char *file_name(const Run *run) {
    return name_of(run->words[run->at.file]);
}

/* Says why a file couldn't be read; whether that was so. */
static int said_unread(const Run *run, int place, const Bytes *its) {
    if (place < 0 || its->status != READ_FAILED) return 0;
    const char *name = name_of(run->words[place]);
    if (is_folder(run->names[place])) SAY(name, ": is a folder");
    else if (is_standard_input(run->names[place]) && its->failure == EBADF) SAY(name, ": is closed");
    else SAY(name, its->is_open ? ": a read failed: " : ": can't be opened: ", strerror(its->failure));
    return 1;
}

#define MENDED_TOO_LARGE "the mended text would have more than 164,000,000 bytes"

static const char *text_too_large(const char *form) {
    static const char *const texts[][2] = {
        {"extract FILE N", "the extracted text would have more than 164,000,000 bytes"},
        {"compact FILE N", "the compact text would have more than 164,000,000 bytes"},
        {"reorient FILE N", "the reoriented text would have more than 164,000,000 bytes"},
        {"mend FILE N", MENDED_TOO_LARGE},
        {"mend FILE N R", MENDED_TOO_LARGE},
        {"mended FILE N", MENDED_TOO_LARGE},
        {"mended FILE N R", MENDED_TOO_LARGE},
        {"relayout FILE", "the file in the layout of the fixed form would have more than 164,000,000 bytes"},
        {"layout FILE", "the file in the layout of the fixed form would have more than 164,000,000 bytes"},
        {"upgrade FILE CERT", "the upgraded text would have more than 536,870,912 bytes"},
        {"certify FILE all", "its solids together have more than 6,000,000 loop uses"},
    };
    for (size_t k = 0; k < sizeof texts / sizeof *texts; k++)
        if (strcmp(form, texts[k][0]) == 0) return texts[k][1];
    return "too large";
}

static void say_too_large(const Run *run) {
    if (run->file.length > FILE_LIMIT) SAY(file_name(run), ": the file has more than 164,000,000 bytes");
    else if (run->certificate.length > CERTIFICATE_LIMIT) SAY(name_of(run->words[run->at.certificate]), ": the certificate has more than 536,870,912 bytes");
    else SAY(file_name(run), ": ", text_too_large(run->form->words));
}

/* The first line of the answer. */
static size_t first_line(const Run *run) {
    const void *end = memchr(run->text.bytes, '\n', run->text.length);
    return end ? (size_t)((const uint8_t *)end - run->text.bytes) : run->text.length;
}

static int ends(const char *text, size_t length, const char *with) {
    return length >= strlen(with) && begins(text + length - strlen(with), strlen(with), with);
}

/* Asks whether a certificate belongs to the file, where the answer is that it names a solid or a shell that isn't so in the file. */
static void ask_about_certificate(const Run *run) {
    const char *text = (const char *)run->text.bytes, *words[] = {"fail ENTRY ", "fail TYPE "};
    size_t length = run->text.length - (run->text.length > 0), first = first_line(run);
    int is_foreign = first == length && length == 12 && begins(text, 5, "line ") && strchr("234", text[5]) && ends(text, length, " unfit");
    for (int k = 0; k < 2; k++) {
        const char *line = length > first ? text + first + 1 : text;
        size_t size = length - (size_t)(line - text);
        is_foreign |= begins(line, size, words[k]) && ends(line, size, " 0");
    }
    if (!is_foreign || !is_file(run->names[run->at.file]) || !is_file(run->names[run->at.certificate])) return;
    SAY(run->words[run->at.certificate], ": does this certificate belong to ", run->words[run->at.file],
        "? It is of a solid or shell that isn't so in this file");
}

/* Names the command that may put the lines of a file right, where the answer is that they aren't those of the fixed form. */
static void name_layout(const Run *run) {
    static const char *const reasons[] = {" not-fixed", " length", " letter", " missing", " number", " counts", " after", NULL};
    const char *text = (const char *)run->text.bytes;
    if (strcmp(run->form->kind, "command") != 0 || !is_file(run->names[run->at.file]) || !begins(text, run->text.length, "bad file line ")) return;
    for (const char *const *reason = reasons; *reason; reason++)
        if (ends(text, first_line(run), *reason))
            SAY(file_name(run), ": its lines aren't those of the fixed form; igesolid layout says whether igesolid relayout can put them right");
}

/* Says why nothing is mended, where the answer tells so: as a rule standard output is the file that is wanted. */
static void say_unmended(const Run *run) {
    const char *text = (const char *)run->text.bytes;
    size_t length = run->text.length - (run->text.length > 0), first = first_line(run);
    if (first >= length || !is_file(run->names[run->at.file])) return;
    const char *why = text + first + 1;
    size_t size = length - first - 1;
    if (size == 5 && begins(why, size, "stuck")) SAY(file_name(run), ": nothing is mended: no remedy is known that closes the solid");
    if (begins(why, size, "needs faces ")) SAY(file_name(run), ": nothing is mended: faces must be made anew; igesolid where names the edges of their rims");
    if (size == 8 && begins(why, size, "unsure ")) {
        const char number[] = {why[7], 0};
        SAY(file_name(run), ": nothing is mended: the records don't tell which remedy is meant; igesolid mended FILE N ", number,
            " tells one, and igesolid mend FILE N ", number, " writes it");
    }
}

static void say_output_failed(const char *name) {
    SAY(name, *name ? ": " : "", "standard output failed, so the answer is cut short or missing");
}
