/* Writes the page of a solid, for main.c: FILE and the text of where go into the page of companion/, whose script draws them. */

/* What is written so far and waits, and how many bytes of the line of base64 there are; once a write has failed nothing is written. */
typedef struct {
    uint8_t bytes[1 << 14];
    size_t length, column;
    int status;
    uint8_t group[3]; /* of base64 */
    size_t grouped;
} Output;

static void flush(Output *out) {
    if (out->status == 0) out->status = write_all(out->bytes, out->length);
    out->length = 0;
}

static void put_byte(Output *out, uint8_t byte) {
    if (out->length == sizeof out->bytes) flush(out);
    out->bytes[out->length++] = byte;
}

static void put_group(Output *out) {
    static const char letters[] = "ABCDEFGHIJKLMNOPQRSTUVWXYZabcdefghijklmnopqrstuvwxyz0123456789+/";
    uint32_t value = (uint32_t)out->group[0] << 16 | (uint32_t)out->group[1] << 8 | out->group[2];
    for (size_t k = 0; k < 4; k++) put_byte(out, k > out->grouped ? '=' : (uint8_t)letters[value >> (18 - 6 * k) & 63]);
    out->column += 4, out->grouped = 0;
    memset(out->group, 0, 3);
    if (out->column == 76) put_byte(out, '\n'), out->column = 0;
}

static void put_coded(Output *out, const void *bytes, size_t length) {
    for (const uint8_t *it = bytes, *end = it + length; it < end; it++) {
        out->group[out->grouped++] = *it;
        if (out->grouped == 3) put_group(out);
    }
}

static void end_coded(Output *out) {
    if (out->grouped > 0) put_group(out);
    if (out->column > 0) put_byte(out, '\n');
    out->column = 0;
}

static uint32_t checksum(const uint8_t *bytes, size_t length) {
    uint32_t table[256], sum = 0xffffffffu;
    for (uint32_t k = 0; k < 256; k++) {
        table[k] = k;
        for (int bit = 0; bit < 8; bit++) table[k] = table[k] >> 1 ^ (table[k] & 1 ? 0xedb88320u : 0);
    }
    for (size_t k = 0; k < length; k++) sum = sum >> 8 ^ table[(sum ^ bytes[k]) & 255];
    return ~sum;
}

static void put_coded_number(Output *out, uint32_t value, size_t count) {
    uint8_t bytes[] = {(uint8_t)value, (uint8_t)(value >> 8), (uint8_t)(value >> 16), (uint8_t)(value >> 24)};
    put_coded(out, bytes, count);
}

/* The bytes in the form of gzip, which the page reads, but as they are. */
static void put_gzip(Output *out, const uint8_t *bytes, size_t length) {
    static const uint8_t head[] = {31, 139, 8, 0, 0, 0, 0, 0, 0, 3};
    size_t at = 0;
    put_coded(out, head, sizeof head);
    do {
        size_t size = length - at < 65535 ? length - at : 65535;
        put_coded_number(out, at + size == length, 1);
        put_coded_number(out, (uint32_t)size, 2), put_coded_number(out, ~(uint32_t)size, 2);
        put_coded(out, bytes + at, size);
        at += size;
    } while (at < length);
    put_coded_number(out, checksum(bytes, length), 4), put_coded_number(out, (uint32_t)length, 4);
}

/* The next part of the page; where the part behind it begins. */
static const char *const *put_part(Output *out, const char *const *part) {
    for (; *part; part++)
        for (const char *it = *part; *it; it++) put_byte(out, (uint8_t)*it);
    return part + 1;
}

static const char *last_part(const char *name) {
    const char *last = name;
    for (; *name; name++)
        if (is_separator(*name)) last = name + 1;
    return last;
}

static int print_page(const Run *run) {
    Output out = {.length = 0};
    const char *name = strcmp(run->words[1], "-") == 0 ? "standard input" : last_part(run->words[1]);
    const char *const *part = put_part(&out, page_parts);
    put_coded(&out, name, strlen(name) + 1), put_coded(&out, run->words[2], strlen(run->words[2])), end_coded(&out);
    part = put_part(&out, part);
    put_coded(&out, run->text.bytes, run->text.length), end_coded(&out);
    part = put_part(&out, part);
    put_gzip(&out, run->file.length > 0 ? run->file.bytes : (const uint8_t *)"", run->file.length), end_coded(&out);
    put_part(&out, part);
    flush(&out);
    return out.status;
}

/* Where the library doesn't answer there is no page. */
static int write_page(Run *run) {
    if (run->count != 3 || dashes(run) > 1) return IGESOLID_USAGE;
    char *words[] = {"-", run->words[2], "all"}, *text = joined(3, words);
    if (!text) return IGESOLID_NO_MEMORY;
    run->at.file = 1;
    int status = answered(IS_where, text, run);
    free(text);
    if (status != IGESOLID_DONE && status != IGESOLID_NO && status != IGESOLID_BAD_FILE) return status;
    return print_page(run) == 0 ? status : WRITE_FAILED;
}
