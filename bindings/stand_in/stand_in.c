/* Stands in for the library in tests of the bindings: the status is the first digit of the table, and
 * the line of a status 0 or 1 shows what came in. A table that begins with `x` is a bad one. */
#include "picky.h"
#include <stdio.h>
#include <stdlib.h>
#include <string.h>

/* A table as a handle has it. */
struct kept { size_t length; uint8_t text[]; };

static uint8_t answer(const char *call, const uint8_t *words, size_t words_length, size_t file, const uint8_t *table, size_t table_length,
                      size_t list, uint8_t *line, size_t line_length, size_t *written) {
    char text[1024];
    *written = 0;
    if (table_length > PICKY_LONGEST) return PICKY_TOO_LONG;
    uint8_t status = table_length ? (uint8_t)(table[0] - '0') : 0;
    if (status > 1) return status;
    int length = snprintf(text, sizeof text, "%s %zu %zu %zu ", call, file, table_length, list);
    for (size_t at = 0; at < words_length; at++) text[length++] = words[at] == '\n' ? '|' : (char)words[at];
    text[length++] = '\n';
    if ((size_t)length > line_length) return PICKY_NO_ROOM;
    memcpy(line, text, (size_t)length);
    *written = (size_t)length;
    return status;
}

uint8_t picky_check_bytes(const uint8_t *words, size_t words_length, const uint8_t *signature, size_t signature_length, const uint8_t *table,
                          size_t table_length, const uint8_t *list, size_t list_length, uint8_t *line, size_t line_length, size_t *written) {
    if (!signature || !list || !words) return 101;
    return answer("check", words, words_length, signature_length, table, table_length, list_length, line, line_length, written);
}

uint8_t picky_chain_bytes(const uint8_t *words, size_t words_length, const uint8_t *table, size_t table_length, const uint8_t *certificates,
                          size_t certificates_length, const size_t *lengths, size_t count, uint8_t *line, size_t line_length, size_t *written) {
    size_t sum = 0;
    if (!certificates || !lengths || !words) return 101;
    for (size_t at = 0; at < count; at++) sum = 10 * sum + lengths[at];
    return answer("chain", words, words_length, certificates_length, table, table_length, sum, line, line_length, written);
}

uint8_t picky_ask_bytes(const uint8_t *words, size_t words_length, const uint8_t *files, size_t files_length, const size_t *lengths, size_t count,
                        uint8_t *lines, size_t lines_length, size_t *written) {
    size_t sum = 0;
    if (!files || !lengths || !words) return 101;
    for (size_t at = 0; at < count; at++) sum = 10 * sum + lengths[at];
    return answer("ask", words, words_length, files_length, (const uint8_t *)"0", 1, sum, lines, lines_length, written);
}

uint8_t picky_pe_bytes(const uint8_t *words, size_t words_length, const uint8_t *program, size_t program_length, const uint8_t *table,
                       size_t table_length, const uint8_t *list, size_t list_length, uint8_t *line, size_t line_length, size_t *written) {
    if (!program || !list || !words) return 101;
    return answer("pe", words, words_length, program_length, table, table_length, list_length, line, line_length, written);
}

uint8_t picky_table_parse(const uint8_t *text, size_t text_length, picky_table *table) {
    if (!text) return 101;
    if (text_length && text[0] == 'x') return PICKY_BAD_TABLE;
    struct kept *kept = malloc(sizeof *kept + text_length);
    if (!kept) return PICKY_OUT_OF_MEMORY;
    kept->length = text_length;
    memcpy(kept->text, text, text_length);
    picky_table_free(table);
    table->inside = kept;
    return PICKY_ACCEPTED;
}

void picky_table_free(picky_table *table) {
    free(table->inside);
    table->inside = 0;
}

/* The status of a call whose table isn't there. */
static uint8_t no_table(size_t *written) {
    *written = 0;
    return PICKY_NO_FILE;
}

uint8_t picky_check_with_table(const uint8_t *words, size_t words_length, const uint8_t *signature, size_t signature_length, picky_table *table,
                               const uint8_t *list, size_t list_length, uint8_t *line, size_t line_length, size_t *written) {
    const struct kept *kept = table->inside;
    if (!kept) return no_table(written);
    return picky_check_bytes(words, words_length, signature, signature_length, kept->text, kept->length, list, list_length, line, line_length, written);
}

uint8_t picky_pe_with_table(const uint8_t *words, size_t words_length, const uint8_t *program, size_t program_length, picky_table *table,
                            const uint8_t *list, size_t list_length, uint8_t *line, size_t line_length, size_t *written) {
    const struct kept *kept = table->inside;
    if (!kept) return no_table(written);
    return picky_pe_bytes(words, words_length, program, program_length, kept->text, kept->length, list, list_length, line, line_length, written);
}

uint8_t picky_chain_with_table(const uint8_t *words, size_t words_length, picky_table *table, const uint8_t *certificates, size_t certificates_length,
                               const size_t *lengths, size_t count, uint8_t *line, size_t line_length, size_t *written) {
    const struct kept *kept = table->inside;
    if (!kept) return no_table(written);
    return picky_chain_bytes(words, words_length, kept->text, kept->length, certificates, certificates_length, lengths, count, line, line_length, written);
}
