/* caller KIND FILE TABLE LIST WORD ..: the status and the line of a call, for tests (case.h). With
 * STEPS in the environment the table goes through a handle, and each letter is a step: `p` parses
 * TABLE, `b` a bad table, `e` an empty one, `l` that of the file LONG in the environment, `f` frees the
 * handle, `c` calls.
 * A parse prints its letter and status. */
#include "case.h"

static void print_call(const struct test_case *test, picky_table *handle) {
    struct answer answer = answer_of(test, handle);
    printf("%d ", answer.status);
    fwrite(answer.line, 1, answer.written, stdout);
    free(answer.line);
}

static void print_parse(char step, const uint8_t *text, size_t length, picky_table *handle) {
    printf("%c%d ", step, picky_table_parse(text, length, handle));
}

int main(int count, char **arguments) {
    struct test_case test = case_of(count, arguments);
    const char *steps = getenv("STEPS");
    picky_table handle = PICKY_NO_TABLE;
    if (!steps) print_call(&test, 0);
    for (; steps && *steps; steps++) {
        if (*steps == 'c') print_call(&test, &handle);
        if (*steps == 'p') print_parse('p', test.table.at, test.table.length, &handle);
        if (*steps == 'b') print_parse('b', (const uint8_t *)"x\n", 2, &handle);
        if (*steps == 'e') print_parse('e', (const uint8_t *)"", 0, &handle);
        if (*steps == 'f') picky_table_free(&handle);
        if (*steps == 'l') {
            struct octets text = octets_of(getenv("LONG"));
            print_parse('l', text.at, text.length, &handle);
            free(text.at);
        }
    }
    picky_table_free(&handle);
    free_case(test);
    return 0;
}
