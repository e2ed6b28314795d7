/* rows [-t] [REPEAT [THREADS]]: the answers to the rows of standard input, for tests, a line each: the
 * status and the line, a newline in it as `|`. A row has words separated by spaces, all but the first
 * two in hexadecimal, `-` for none, `OCTETS*COUNT` for these octets repeated, with `+` between parts:
 *
 *     check|pe ROOM WORDS FILE TABLE LIST
 *     chain|ask ROOM WORDS POOL TABLE LENGTHS
 *
 * WORDS has a newline between two, and LENGTHS is a text of decimal digits, a line each. Each row is
 * also called with its table in a handle, twice, and with the table of the row before, as octets and in
 * that row's handle, which has to answer the same; and no answer needs a table that doesn't parse. All
 * rows are then called REPEAT times in each thread, with -t by handles of the thread, and each answer
 * has to be the first; the time for a call and the memory before and after go to standard error. What
 * is behind the line in the buffer must not change. */
#include "picky.h"
#include <pthread.h>
#include <stdio.h>
#include <stdlib.h>
#include <string.h>
#include <time.h>

struct octets { uint8_t *at; size_t length; };
struct row { char kind; size_t room, count, lengths[64]; struct octets words, file, table, list; uint8_t *answer; size_t written; uint8_t status; };

static struct row *rows;
static size_t row_count, repeat = 1;
static int by_handles;

static void stop(const char *why, size_t number) { fprintf(stderr, "row %zu: %s\n", number, why); exit(100); }

static int digit(char c) { return c <= '9' ? c - '0' : c - 'a' + 10; }

/* Parts with `+` between, each octets, and how often. */
static struct octets octets_of(const char *text) {
    struct octets found = {malloc(1), 0};
    if (!strcmp(text, "-")) return found;
    for (const char *at = text; at; at = strchr(at, '+'), at = at ? at + 1 : 0) {
        size_t length = strspn(at, "0123456789abcdef") / 2, count = at[2 * length] == '*' ? strtoul(at + 2 * length + 1, 0, 10) : 1;
        found.at = realloc(found.at, found.length + length * count + 1);
        if (!found.at) exit(100);
        for (size_t place = 0; place < length * count; place++)
            found.at[found.length++] = (uint8_t)(16 * digit(at[place % length * 2]) + digit(at[place % length * 2 + 1]));
    }
    found.at = realloc(found.at, found.length + !found.length);
    if (!found.at) exit(100);
    return found;
}

static struct row row_of(char *line) {
    char *words[6];
    for (int at = 0; at < 6; at++) if (!(words[at] = strtok(at ? 0 : line, " \n"))) stop("six words are missing", row_count);
    struct row row = {.kind = words[0][1], .room = strtoul(words[1], 0, 10), .words = octets_of(words[2]), .file = octets_of(words[3]),
                      .table = octets_of(words[4]), .list = octets_of(words[5])};
    if (row.kind == 'h' && words[0][2] == 'a') row.kind = 'c';
    if (row.kind == 'c' || row.kind == 's') {
        char *text = calloc(row.list.length + 1, 1), *next;
        memcpy(text, row.list.at, row.list.length);
        for (char *at = text; row.count < 64 && (row.lengths[row.count] = strtoul(at, &next, 10), next != at); at = next) row.count++;
        free(text);
    }
    return row;
}

static int has_table(const struct row *row) { return row->kind != 's'; }

static uint8_t call(const struct row *row, picky_table *handle, uint8_t *line, size_t *written) {
    struct octets w = row->words, f = row->file, t = row->table, l = row->list;
    if (handle && row->kind == 'c') return picky_chain_with_table(w.at, w.length, handle, f.at, f.length, row->lengths, row->count, line, row->room, written);
    if (handle) return (row->kind == 'e' ? picky_pe_with_table : picky_check_with_table)(w.at, w.length, f.at, f.length, handle, l.at, l.length, line, row->room, written);
    if (row->kind == 'c') return picky_chain_bytes(w.at, w.length, t.at, t.length, f.at, f.length, row->lengths, row->count, line, row->room, written);
    if (row->kind == 's') return picky_ask_bytes(w.at, w.length, f.at, f.length, row->lengths, row->count, line, row->room, written);
    return (row->kind == 'e' ? picky_pe_bytes : picky_check_bytes)(w.at, w.length, f.at, f.length, t.at, t.length, l.at, l.length, line, row->room, written);
}

static void answer(struct row *row, size_t number, picky_table *handle, int is_first) {
    uint8_t *line = malloc(row->room ? row->room : 1);
    size_t written = row->room + 1;
    memset(line, 0xA5, row->room);
    uint8_t status = call(row, handle, line, &written);
    if (written > row->room) stop("more is written than the buffer has", number);
    for (size_t at = written; at < row->room; at++) if (line[at] != 0xA5) stop("the buffer has changed behind the line", number);
    if (is_first) {
        row->status = status, row->written = written, row->answer = malloc(written + 1);
        memcpy(row->answer, line, written);
    } else if (status != row->status || written != row->written || memcmp(line, row->answer, written)) stop("another answer than before", number);
    free(line);
}

/* A handle with the row's table; empty where that doesn't parse. */
static picky_table handle_of(const struct row *row, size_t number) {
    picky_table handle = PICKY_NO_TABLE;
    uint8_t status = picky_table_parse(row->table.at, row->table.length, &handle);
    if (status != PICKY_ACCEPTED && status != PICKY_BAD_TABLE) stop("another status of a parse", number);
    if (!handle.inside != (status == PICKY_BAD_TABLE)) stop("the status isn't that of the handle", number);
    return handle;
}

/* The first answers, and the same by handles. */
static void answer_first(void) {
    picky_table before = PICKY_NO_TABLE;
    struct octets text_before = {0, 0};
    for (size_t at = 0; at < row_count; at++) {
        struct row *row = rows + at;
        answer(row, at, 0, 1);
        if (!has_table(row)) continue;
        picky_table handle = handle_of(row, at);
        for (int twice = 0; handle.inside && twice < 2; twice++) answer(row, at, &handle, 0);
        if (!handle.inside && (row->status <= PICKY_REFUSED || row->status == PICKY_NO_ROOM)) stop("an answer by a table that doesn't parse", at);
        if (before.inside) {
            struct row other = *row;
            other.table = text_before;
            answer(&other, at, 0, 1);
            answer(&other, at, &before, 0);
            free(other.answer);
        }
        picky_table_free(&before);
        before = handle, text_before = row->table;
    }
    picky_table_free(&before);
}

static void *again(void *nothing) {
    picky_table *handles = calloc(row_count, sizeof *handles);
    if (!handles) exit(100);
    for (size_t at = 0; by_handles && at < row_count; at++) if (has_table(rows + at)) handles[at] = handle_of(rows + at, at);
    for (size_t round = 0; round < repeat; round++)
        for (size_t at = 0; at < row_count; at++) answer(rows + at, at, handles[at].inside ? handles + at : 0, 0);
    for (size_t at = 0; at < row_count; at++) picky_table_free(handles + at);
    free(handles);
    return nothing;
}

static double seconds(clockid_t which) {
    struct timespec at;
    clock_gettime(which, &at);
    return (double)at.tv_sec + 1e-9 * (double)at.tv_nsec;
}

static long resident(void) {
    FILE *file = fopen("/proc/self/statm", "r");
    long pages = 0;
    if (!file || fscanf(file, "%*s %ld", &pages) != 1) pages = 0;
    if (file) fclose(file);
    return 4 * pages;
}

int main(int count, char **arguments) {
    by_handles = count > 1 && !strcmp(arguments[1], "-t");
    count -= by_handles, arguments += by_handles;
    size_t threads = count > 2 ? strtoul(arguments[2], 0, 10) : 0, space = 0;
    char *line = 0;
    if (count > 1) repeat = strtoul(arguments[1], 0, 10);
    while (getline(&line, &space, stdin) > 0) {
        if (row_count % 1024 == 0) rows = realloc(rows, (row_count + 1024) * sizeof *rows);
        if (!rows) return 100;
        rows[row_count] = row_of(line), row_count++;
    }
    free(line);
    answer_first();
    long before = resident();
    double start = seconds(CLOCK_PROCESS_CPUTIME_ID), clock_start = seconds(CLOCK_MONOTONIC);
    if (count > 1) {
        pthread_t others[64];
        for (size_t at = 0; at < threads && at < 64; at++) if (pthread_create(others + at, 0, again, 0)) return 100;
        if (!threads) again(0);
        for (size_t at = 0; at < threads && at < 64; at++) pthread_join(others[at], 0);
        double calls = (double)repeat * (double)row_count * (double)(threads ? threads : 1), micro = 1e6 / calls;
        fprintf(stderr, "%.0f calls, %.2f microseconds of processor time each, %.2f by the clock; %ld KiB before, %ld KiB after\n", calls,
                micro * (seconds(CLOCK_PROCESS_CPUTIME_ID) - start), micro * (seconds(CLOCK_MONOTONIC) - clock_start), before, resident());
    }
    for (size_t at = 0; at < row_count; at++) {
        printf("%d ", rows[at].status);
        for (size_t place = 0; place < rows[at].written; place++) putchar(rows[at].answer[place] == '\n' ? '|' : rows[at].answer[place]);
        putchar('\n');
        free(rows[at].answer), free(rows[at].words.at), free(rows[at].file.at), free(rows[at].table.at), free(rows[at].list.at);
    }
    free(rows);
    return 0;
}
