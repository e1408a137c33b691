/* threads EXAMPLES: eight threads, each with a file of its own, call side by side; each gets what it got alone. */
#include "files.h"
#include <pthread.h>

#define ROUNDS 20

static const char *const names[8] = {"two_solids.igs",    "cube.igs",          "ball.igs",     "cube_void.igs",
                                     "no/fail_pair.igs", "no/bad_length.igs", "sheet.igs", "two_tetrahedra.igs"};
static const char *const words[3] = {"certify\n-\nall", "solids\n-", "extract\n-\n1"};

typedef struct {
    Bytes file;
    uint32_t status[4];
    igesolid_text text[4];
    int held;
} Work;

static void ask(Work *work, int kind, uint32_t *status, igesolid_text *text) {
    Bytes none = {(uint8_t *)"", 0};
    *text = (igesolid_text)IGESOLID_NO_TEXT;
    *status = kind < 3 ? run(words[kind], work->file, none, text) : where("-\n1\nall", work->file, text);
}

static void *work_on(void *given) {
    Work *work = given;
    for (int round = 0; round < ROUNDS; round++) {
        for (int kind = 0; kind < 4; kind++) {
            uint32_t status;
            igesolid_text text;
            ask(work, kind, &status, &text);
            work->held += status == work->status[kind] && text.length == work->text[kind].length
                && memcmp(text.bytes, work->text[kind].bytes, text.length) == 0;
            igesolid_free(&text);
        }
    }
    return NULL;
}

int main(int count, char **given) {
    if (count != 2) return 2;
    static Work works[8];
    pthread_t threads[8];
    for (int k = 0; k < 8; k++) {
        works[k].file = bytes_of(given[1], names[k]);
        for (int kind = 0; kind < 4; kind++) ask(&works[k], kind, &works[k].status[kind], &works[k].text[kind]);
    }
    for (int k = 0; k < 8; k++)
        if (pthread_create(&threads[k], NULL, work_on, &works[k]) != 0) return 6;
    for (int k = 0; k < 8; k++) {
        pthread_join(threads[k], NULL);
        printf("thread %d, %s\t%s\n", k + 1, names[k], works[k].held == 4 * ROUNDS ? "yes" : "no");
        for (int kind = 0; kind < 4; kind++) igesolid_free(&works[k].text[kind]);
        free(works[k].file.bytes);
    }
    return 0;
}
