/* A call: its block, its status and its text. Its stack's first 16 bytes are for the text. */
static u8 *begun(void) {
    u8 *block = (u8 *)calloc(1, ROOM + sizeof constants);
    B b = (B)block + ROOM - STACK;
    if (!block) return NULL;
    memcpy(block + ROOM, constants, sizeof constants);
    SP = STACK - 16;
    put64(b, STACK - 16, STACK - 16);
    return block;
}

static u32 ended(B b, u32 status, igesolid_text *text) {
    u64 length = get64(b, STACK - 8);
    text->bytes = length ? (const u8 *)PLACE(b, get64(b, STACK - 16)) : (const u8 *)"";
    text->length = (size_t)length;
    free(PLACE(b, STACK - ROOM));
    return status;
}

#define GIVEN(p) address(b, p), p##_length

uint32_t igesolid_run(const uint8_t *words, size_t words_length, const uint8_t *file, size_t file_length, const uint8_t *certificate,
                      size_t certificate_length, igesolid_text *text) {
    u8 *block = begun();
    B b = (B)block + ROOM - STACK;
    return block ? ended(b, run(b, GIVEN(words), GIVEN(file), GIVEN(certificate), STACK - 16), text) : IGESOLID_NO_MEMORY;
}

uint32_t igesolid_where(const uint8_t *words, size_t words_length, const uint8_t *file, size_t file_length, igesolid_text *text) {
    u8 *block = begun();
    B b = (B)block + ROOM - STACK;
    return block ? ended(b, where(b, GIVEN(words), GIVEN(file), STACK - 16), text) : IGESOLID_NO_MEMORY;
}

uint32_t igesolid_repair(const uint8_t *words, size_t words_length, const uint8_t *file, size_t file_length, igesolid_text *text) {
    u8 *block = begun();
    B b = (B)block + ROOM - STACK;
    return block ? ended(b, repair(b, GIVEN(words), GIVEN(file), STACK - 16), text) : IGESOLID_NO_MEMORY;
}

void igesolid_free(igesolid_text *text) {
    if (text->length > 0) free((void *)text->bytes);
    text->bytes = (const u8 *)"";
    text->length = 0;
}
