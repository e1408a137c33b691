/* What is wrong with the words of a run, and the program's own words, for main.c. */

/* What this program answers by itself of the options of the table. */
static int is_own_word(const char *word) {
    static const char *const own[] = {"--version", "--help", "-h", "help", NULL};
    return is_one_of(word, own);
}

static int is_listed(const Row *row) {
    static const char *const kinds[] = {"command", "python", "shell", NULL};
    return is_one_of(row->kind, kinds) || (strcmp(row->kind, "option") == 0 && is_own_word(row->words));
}

/* Adds the words of each form of a command. */
static void add_forms(Line *line, const char *word) {
    const char *separator = "";
    for (const Row *row = rows; row->kind; row++)
        if (is_listed(row) && opens_with(row, word)) add(line, separator), add(line, "igesolid "), add(line, row->words), separator = ", or ";
}

enum { LONGEST_WORD = 30 };

static int least(int a, int b) {
    return a < b ? a : b;
}

/* How many letters are to be inserted, left out, changed or swapped. */
static int distance(const char *s, int length, const char *t, int width) {
    int d[LONGEST_WORD + 1][LONGEST_WORD + 1];
    for (int i = 0; i <= length; i++) d[i][0] = i;
    for (int j = 0; j <= width; j++) d[0][j] = j;
    for (int i = 1; i <= length; i++)
        for (int j = 1; j <= width; j++) {
            d[i][j] = least(least(d[i - 1][j], d[i][j - 1]) + 1, d[i - 1][j - 1] + (s[i - 1] != t[j - 1]));
            if (i > 1 && j > 1 && s[i - 1] == t[j - 2] && s[i - 2] == t[j - 1]) d[i][j] = least(d[i][j], d[i - 2][j - 2] + 1);
        }
    return d[length][width];
}

/* The row of the command that a word is most like, or as whose beginning it stands; NULL where none is near. */
static const Row *nearest(const char *given) {
    char word[LONGEST_WORD + 1];
    int length = (int)strlen(given), best = length < 8 ? 3 : 4;
    const Row *found = NULL;
    if (length < 2 || length > LONGEST_WORD) return NULL;
    for (int k = 0; k <= length; k++) word[k] = (char)(given[k] >= 'A' && given[k] <= 'Z' ? given[k] + 32 : given[k]);
    for (const Row *row = rows; row->kind; row++) {
        int width = (int)strcspn(row->words, " ");
        if (!is_listed(row) || width > LONGEST_WORD) continue;
        int off = begins(row->words, (size_t)width, word) ? 0 : distance(word, length, row->words, width);
        if (off < best) best = off, found = row;
    }
    return found;
}

static void say_unknown(const Run *run) {
    const char *word = run->words[0];
    const Row *alike = nearest(word);
    Line line = {NULL, 0, 0};
    if (alike) {
        char name[LONGEST_WORD + 1] = "";
        memcpy(name, alike->words, strcspn(alike->words, " "));
        add(&line, word), add(&line, " isn't a command; the nearest is "), add(&line, name), add(&line, ": ");
        add_forms(&line, name);
        say(&line);
    } else if (is_file(run->names[0])) {
        SAY(word, " is a file, and a command comes before it, as in: igesolid certify ", word, " all");
    } else {
        SAY(*word ? word : "an empty word", " isn't a command; igesolid --help lists the commands");
    }
}

/* The form of a command that words come closest to: one of as many words that agree, of as many, of more, of less. */
static const char *closest_form(const Run *run) {
    static const char *const kinds[] = {"command", "shell", NULL};
    const char *found = "";
    int best = 0;
    for (const Row *row = rows; row->kind; row++) {
        if (!is_one_of(row->kind, kinds) || !opens_with(row, run->words[0])) continue;
        const char *rest = row->words, *part, *last = "";
        size_t length, width = 0;
        int count = 0;
        for (; next_part(&rest, &part, &length); count++) last = part, width = length;
        int agrees = is_part(last, width, run->words[run->count - 1]);
        int fit = count == run->count ? (agrees ? 4 : 3) : count > run->count ? 2 : 1;
        if (fit > best || (fit == best && fit == 1)) best = fit, found = row->words;
    }
    return found;
}

/* Whether a word is a number that a command takes. */
static int is_number_of(const char *command, const char *word) {
    int value = is_of_digits(word) && strlen(word) < 8 ? atoi(word) : 0;
    return value > 0 && (strcmp(command, "sample") != 0 || (strlen(word) <= 3 && value >= 3 && value <= 200));
}

static const char *meaning_of_number(const char *command) {
    if (strcmp(command, "sample") == 0) return "from 3 to 200";
    if (strcmp(command, "open") == 0) return "the directory number of a shell, of 1 to 7 digits";
    return "the directory number of a solid, of 1 to 7 digits: igesolid solids FILE lists them";
}

/* What is wrong with the words of a command: the first word that doesn't fit, the parts that are missing, or a word too many; and which number
 * is to be explained then, N or R, if one is. */
static void find_wrong(const Run *run, Line *wrong, char *number) {
    const char *rest = closest_form(run), *part;
    size_t length, missing = 0;
    int k = 0;
    Line named = {NULL, 0, 0};
    while (next_part(&rest, &part, &length) && !ends(part, length, "..")) {
        if (k >= run->count) {
            add(&named, missing++ ? " and " : ""), add_bytes(&named, part, length);
            *number = is_part(part, length, "N") ? 'N' : 0;
            continue;
        }
        const char *word = run->words[k++];
        char its = is_part(part, length, "N") ? 'N' : is_part(part, length, "R") ? 'R' : 0;
        int is_free = begins(part, length, "FILE") || is_part(part, length, "CERT");
        int is_right = its == 'N' ? is_number_of(run->words[0], word) : its ? is_remedy(word) : is_part(part, length, word);
        if (is_free || wrong->length > 0 || is_right) continue;
        add(wrong, *word ? word : "an empty word"), add(wrong, its ? " isn't a number " : " isn't ");
        add_bytes(wrong, part, length);
        *number = its;
    }
    if (missing > 0) {
        wrong->length = 0;
        add_bytes(wrong, named.bytes, named.length), add(wrong, missing > 1 ? " are missing" : " is missing");
    }
    if (k < run->count && !ends(part, length, "..")) {
        wrong->length = 0, *number = 0;
        add(wrong, run->words[k]), add(wrong, " is a word too many");
    }
    free(named.bytes);
}

static void say_wrong_arguments(const Run *run) {
    Line wrong = {NULL, 0, 0};
    char number = 0;
    find_wrong(run, &wrong, &number);
    if (wrong.length == 0) add(&wrong, "these words match no form");
    add(&wrong, ": the words are ");
    add_forms(&wrong, run->words[0]);
    say(&wrong);
    if (number == 'N') SAY("N is ", meaning_of_number(run->words[0]));
    if (number == 'R') SAY("R is the number of a remedy, from 1 to 6: igesolid where FILE N all tells them");
}

static void say_wrong_words(const Run *run) {
    for (int k = 0; k < run->count; k++)
        if (!is_utf8(run->words[k])) {
            SAY(run->words[k], ": this argument isn't UTF-8");
            return;
        }
    if (!run->row) say_unknown(run);
    else if (dashes(run) > 1) SAY("standard input (-) can be given once only");
    else say_wrong_arguments(run);
}

/* The cause of a status with which nothing is written or only a part, what is wrong with the words of a run, a question about a certificate
 * that isn't accepted, why nothing is mended, and the command for a file whose lines are wrong. */
static void explain(const Run *run) {
    const char *name = run->at.file >= 0 ? file_name(run) : "";
    if (run->status == IGESOLID_NO && run->at.certificate >= 0) ask_about_certificate(run);
    else if (run->status == IGESOLID_NO && run->form && opens_with(run->form, "mend")) say_unmended(run);
    else if (run->status == IGESOLID_USAGE) say_wrong_words(run);
    else if (run->status == IGESOLID_BAD_FILE) name_layout(run);
    else if (run->status == READ_FAILED) (void)(said_unread(run, run->at.file, &run->file) || said_unread(run, run->at.certificate, &run->certificate));
    else if (run->status == WRITE_FAILED) say_output_failed(name);
    else if (run->status == IGESOLID_NO_MEMORY) SAY(name, *name ? ": " : "", "out of memory");
    else if (run->status == IGESOLID_TOO_LARGE) say_too_large(run);
}

/* A command of the companion, which this program doesn't have. */
static int refused(const Run *run) {
    int is_option = strstr(run->row->words, " --") != NULL;
    SAY(run->words[0], is_option ? " " : "", is_option ? run->words[1] : "", " is a command in Python, which this program doesn't run");
    return NO_PROGRAM;
}

/* The commands and the options, each with its text behind the longest; a program's commands stand together. Then the statuses. */
static void tell_help(Line *text) {
    size_t width = 0;
    const char *group = "", *separator = "\nStatus: ";
    for (const Row *row = rows; row->kind; row++)
        if (is_listed(row) && strcmp(row->kind, "python") != 0 && strlen(row->words) > width) width = strlen(row->words);
    add(text, "igesolid " VERSION ": solids in files of IGES 5.3\n");
    for (const Row *row = rows; row->kind; row++) {
        if (!is_listed(row) || strcmp(row->kind, "python") == 0) continue;
        const char *its = strcmp(row->kind, "command") == 0 ? row->owner : row->kind;
        if (strcmp(its, group) != 0) add(text, "\n");
        group = its;
        add(text, "  igesolid "), add(text, row->words);
        for (size_t k = strlen(row->words); k < width + 2; k++) add(text, " ");
        add(text, row->text), add(text, "\n");
    }
    for (const Row *row = rows; row->kind; row++)
        if (strcmp(row->kind, "status") == 0) add(text, separator), add(text, row->owner), add(text, " "), add(text, row->text), separator = ", ";
    add(text, ".\n");
}

/* The commands to begin with: where does it fail, what mends it. */
static void tell_usage(Line *text) {
    static const char *const forms[] = {"where FILE", "where FILE N", "page FILE N", "relayout FILE", "mend FILE N", NULL};
    enum { WIDTH = 19 };
    add(text, "usage: igesolid COMMAND .., as in\n\n");
    for (const char *const *form = forms; *form; form++)
        for (const Row *row = rows; row->kind; row++) {
            if (strcmp(row->words, *form) != 0) continue;
            add(text, "  igesolid "), add(text, row->words);
            for (size_t k = strlen(row->words); k < WIDTH + 2; k++) add(text, " ");
            add(text, row->text), add(text, "\n");
        }
    add(text, "\nigesolid --help lists all commands.\n");
}

/* Answers the program's own words, or none. */
static int answer_word(const Run *run) {
    Line text = {NULL, 0, 0};
    if (run->count == 0) {
        tell_usage(&text);
    } else if (strcmp(run->words[0], "--version") == 0) {
        char *program = in_utf8(run->names[-1]);
        add(&text, "igesolid " VERSION "\nsources " SOURCES "\nkit " KIT "\nprogram "), add(&text, program ? program : ""), add(&text, "\n");
        free(program);
    } else {
        tell_help(&text);
    }
    if (write_all((const uint8_t *)text.bytes, text.length) == 0) return run->count == 0 ? IGESOLID_USAGE : 0;
    say_output_failed("");
    return WRITE_FAILED;
}
