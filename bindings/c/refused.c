/* refused KIND FILE TABLE LIST WORD ..: a call (case.h) with its first request for memory refused,
 * then its second, and so on until none is refused, and likewise by a handle, and the handle's parse;
 * for tests, linked with -Wl,--wrap=malloc,--wrap=realloc,--wrap=free. Each call returns 7 with no
 * line, or the answer of the call with ample memory, and leaves no block behind; a parse that is
 * refused leaves the handle as it was. Prints how many requests the three have. */
#include "case.h"

void *__real_malloc(size_t), *__real_realloc(void *, size_t);
void __real_free(void *);

static size_t requests, refused; /* so far, and which is refused; 0 for none */
static long blocks;

void *__wrap_malloc(size_t size) {
    if (++requests == refused) return 0;
    void *block = __real_malloc(size);
    blocks += block != 0;
    return block;
}

void *__wrap_realloc(void *old, size_t size) {
    if (++requests == refused) return 0;
    void *block = __real_realloc(old, size);
    blocks += !old && block;
    return block;
}

void __wrap_free(void *block) {
    blocks -= block != 0;
    __real_free(block);
}

static void stop(const char *why, size_t number) { fprintf(stderr, "request %zu refused: %s\n", number, why); exit(101); }

/* How many requests a call has. */
static size_t each_refused(const struct test_case *test, picky_table *handle) {
    struct answer right = answer_of(test, handle);
    for (size_t number = 1;; number++) {
        struct answer found = {0, __real_malloc(test->room + 1), 1};
        memset(found.line, 0xA5, test->room);
        long before = blocks;
        requests = 0, refused = number;
        found.status = called(test, handle, found.line, &found.written);
        int was_refused = requests >= number;
        refused = 0;
        if (blocks != before) stop("blocks are left behind", number);
        if (found.status == PICKY_OUT_OF_MEMORY) {
            if (found.written || !was_refused) stop("a line, or 7 without a refusal", number);
        } else if (found.status != right.status || found.written != right.written || memcmp(found.line, right.line, right.written)) stop("another answer", number);
        for (size_t at = found.written; at < test->room; at++) if (found.line[at] != 0xA5) stop("the buffer has changed behind the line", number);
        __real_free(found.line);
        if (!was_refused) { free(right.line); return number - 1; }
    }
}

/* How many requests a parse has, into a handle that has an empty table and keeps it where the parse fails. */
static size_t each_parse_refused(const struct test_case *test, picky_table *handle) {
    struct test_case without_rows = *test;
    without_rows.table.length = 0;
    struct answer right = answer_of(&without_rows, 0);
    for (size_t number = 1;; number++) {
        void *had = handle->inside;
        long before = blocks;
        requests = 0, refused = number;
        uint8_t status = picky_table_parse(test->table.at, test->table.length, handle);
        int was_refused = requests >= number;
        refused = 0;
        if (!was_refused) {
            if (status != PICKY_ACCEPTED && (status != PICKY_BAD_TABLE || handle->inside != had)) stop("another status of a parse", number);
            free(right.line);
            return number - 1;
        }
        if (status != PICKY_OUT_OF_MEMORY && status != PICKY_BAD_TABLE) stop("another status of a parse", number);
        if (handle->inside != had || blocks != before) stop("the handle has changed, or blocks are left behind", number);
        struct answer kept = answer_of(test, handle);
        if (kept.status != right.status || kept.written != right.written || memcmp(kept.line, right.line, right.written)) stop("the handle has another table", number);
        free(kept.line);
    }
}

int main(int count, char **arguments) {
    struct test_case test = case_of(count, arguments);
    test.room = 4096;
    picky_table handle = PICKY_NO_TABLE;
    long before = blocks;
    size_t calls = each_refused(&test, 0), calls_with_table = 0, parses = 0;
    if (strcmp(test.kind, "ask")) {
        if (picky_table_parse((const uint8_t *)"", 0, &handle)) stop("an empty table", 0);
        parses = each_parse_refused(&test, &handle);
        calls_with_table = each_refused(&test, &handle);
        picky_table_free(&handle);
        if (handle.inside) stop("the handle isn't empty", 0);
        picky_table_free(&handle);
    }
    if (blocks != before) stop("blocks are left behind", 0);
    printf("%zu %zu %zu\n", calls, parses, calls_with_table);
    free_case(test);
    return 0;
}
