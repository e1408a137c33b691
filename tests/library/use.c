/* use EXAMPLES: each function of igesolid.h as a caller uses it; prints each check and whether it holds. */
#include "files.h"

static void told(const char *name, int holds) {
    printf("%s\t%s\n", name, holds ? "yes" : "no");
}

static int is(igesolid_text text, const char *wanted) {
    return text.length == strlen(wanted) && memcmp(text.bytes, wanted, text.length) == 0;
}

static int begins(igesolid_text text, const char *wanted) {
    return text.length >= strlen(wanted) && memcmp(text.bytes, wanted, strlen(wanted)) == 0;
}

int main(int count, char **given) {
    if (count != 2) return 2;
    const char *folder = given[1];
    Bytes two = bytes_of(folder, "two_solids.igs"), open = bytes_of(folder, "no/fail_pair.igs"), bad = bytes_of(folder, "no/bad_length.igs");
    Bytes none = {(uint8_t *)"", 0};
    igesolid_text text = IGESOLID_NO_TEXT, certificate = IGESOLID_NO_TEXT;

    told("no text", text.length == 0 && text.bytes != NULL);
    igesolid_free(&text);
    told("no text, freed", text.length == 0 && text.bytes != NULL);

    told("solids", run("solids\n-", two, none, &text) == IGESOLID_DONE && is(text, "1\n11\n"));
    igesolid_free(&text);
    told("freed", text.length == 0 && text.bytes != NULL);
    igesolid_free(&text);
    told("freed twice", text.length == 0);

    told("certify", run("certify\n-\nall", two, none, &certificate) == IGESOLID_DONE && begins(certificate, "IGESCERT"));
    Bytes its = {(uint8_t *)certificate.bytes, certificate.length};
    told("verify", run("verify\n-\n-", two, its, &text) == IGESOLID_DONE && is(text, "accepted 1\naccepted 11\n"));
    igesolid_free(&text);
    its.length -= 5;
    told("verify what is cut", run("verify\n-\n-", two, its, &text) == IGESOLID_NO);
    igesolid_free(&text);
    igesolid_free(&certificate);

    told("no", run("certify\n-\n1", open, none, &text) == IGESOLID_NO && is(text, "fail PAIR 7 1\n"));
    igesolid_free(&text);
    told("where", where("-\n1", open, &text) == IGESOLID_NO && begins(text, "fail PAIR 7 1\nunits"));
    igesolid_free(&text);
    told("where of all", where("-", two, &text) == IGESOLID_DONE && begins(text, "solids 2"));
    igesolid_free(&text);
    told("usage", run("solid\n-", two, none, &text) == IGESOLID_USAGE && begins(text, "usage: igesolid "));
    igesolid_free(&text);
    told("usage of where", where("-\nx", two, &text) == IGESOLID_USAGE && begins(text, "usage: igesolid-where "));
    igesolid_free(&text);
    told("no words", run("", two, none, &text) == IGESOLID_USAGE && begins(text, "usage: "));
    igesolid_free(&text);
    told("words that aren't UTF-8", run("solids\n\xff", two, none, &text) == IGESOLID_USAGE);
    igesolid_free(&text);
    told("a bad file", run("solids\n-", bad, none, &text) == IGESOLID_BAD_FILE && is(text, "bad file line 2 length\n"));
    igesolid_free(&text);
    told("no bytes", run("solids\n-", none, none, &text) == IGESOLID_BAD_FILE && begins(text, "bad file line 1 "));
    igesolid_free(&text);
    told("no extract", run("extract\n-\n3", two, none, &text) == IGESOLID_NO_EXTRACT && begins(text, "no extract "));
    igesolid_free(&text);
    told("extract", run("extract\n-\n11", two, none, &text) == IGESOLID_DONE && text.length % 81 == 0);
    Bytes part = {(uint8_t *)text.bytes, text.length};
    told("what is extracted", run("solids\n-", part, none, &certificate) == IGESOLID_DONE && is(certificate, "1\n"));
    igesolid_free(&certificate);
    igesolid_free(&text);

    told("repair", igesolid_repair((const uint8_t *)"layout\n-", 8, two.bytes, two.length, &text) == IGESOLID_DONE && text.length > 0);
    igesolid_free(&text);
    told("relayout", igesolid_repair((const uint8_t *)"relayout\n-", 10, two.bytes, two.length, &text) == IGESOLID_DONE
        && text.length == two.length && memcmp(text.bytes, two.bytes, two.length) == 0);
    igesolid_free(&text);

    Bytes large = {calloc(164000001, 1), 164000001};
    if (!large.bytes) return 6;
    told("too large", run("solids\n-", large, none, &text) == IGESOLID_TOO_LARGE && text.length == 0 && text.bytes != NULL);
    igesolid_free(&text);
    free(large.bytes);
    free(two.bytes);
    free(open.bytes);
    free(bad.bytes);
    return 0;
}
