/* The words of a caller for tests, shared by caller.c and refused.c:
 *
 *     check|pe FILE TABLE LIST WORD ..
 *     chain|ask POOL TABLE LENGTHS WORD ..
 *
 * FILE, TABLE and LIST are paths, or `-` for no octets; LENGTHS is a file with the lengths of the
 * pool's files in decimal digits, a line each. The environment's ROOM is the length of the buffer. */
#ifndef PICKY_CASE_H
#define PICKY_CASE_H

#include "picky.h"
#include <stdio.h>
#include <stdlib.h>
#include <string.h>

struct octets { uint8_t *at; size_t length; };

struct test_case {
    const char *kind;
    struct octets words, file, table, list;
    size_t lengths[64], count, room;
};

/* What a call answers, in a buffer of its own. */
struct answer { uint8_t status, *line; size_t written; };

static struct octets octets_of(const char *path) {
    struct octets found = {malloc(1u << 25), 0};
    if (!found.at) exit(100);
    if (strcmp(path, "-") == 0) return found;
    FILE *file = fopen(path, "rb");
    if (!file) { perror(path); exit(100); }
    found.length = fread(found.at, 1, (1u << 25) - 1, file);
    fclose(file);
    return found;
}

static struct test_case case_of(int count, char **arguments) {
    if (count < 5) exit(100);
    struct test_case test = {.kind = arguments[1], .words = {calloc(1u << 16, 1), 0}, .file = octets_of(arguments[2]),
                             .table = octets_of(arguments[3]), .list = octets_of(arguments[4]),
                             .room = getenv("ROOM") ? (size_t)atol(getenv("ROOM")) : 1u << 20};
    if (!test.words.at) exit(100);
    for (int at = 5; at < count; at++) {
        if (at > 5) strcat((char *)test.words.at, "\n");
        strncat((char *)test.words.at, arguments[at], 1000);
    }
    test.words.length = strlen((char *)test.words.at);
    test.list.at[test.list.length] = 0;
    for (char *at = (char *)test.list.at, *next; test.count < 64 && (test.lengths[test.count] = strtoul(at, &next, 10), next != at); at = next) test.count++;
    return test;
}

static void free_case(struct test_case test) { free(test.words.at), free(test.file.at), free(test.table.at), free(test.list.at); }

/* A call, with the table of a handle where there is one; its line goes to a buffer that the caller has. */
static uint8_t called(const struct test_case *test, picky_table *handle, uint8_t *line, size_t *written) {
    struct octets w = test->words, f = test->file, t = test->table, l = test->list;
    if (!strcmp(test->kind, "ask")) return picky_ask_bytes(w.at, w.length, f.at, f.length, test->lengths, test->count, line, test->room, written);
    if (!strcmp(test->kind, "chain"))
        return handle ? picky_chain_with_table(w.at, w.length, handle, f.at, f.length, test->lengths, test->count, line, test->room, written)
                      : picky_chain_bytes(w.at, w.length, t.at, t.length, f.at, f.length, test->lengths, test->count, line, test->room, written);
    int is_pe = !strcmp(test->kind, "pe");
    if (handle) return (is_pe ? picky_pe_with_table : picky_check_with_table)(w.at, w.length, f.at, f.length, handle, l.at, l.length, line, test->room, written);
    return (is_pe ? picky_pe_bytes : picky_check_bytes)(w.at, w.length, f.at, f.length, t.at, t.length, l.at, l.length, line, test->room, written);
}

/* The same with a buffer of the case's length, which has to stay as it is behind the line. */
static struct answer answer_of(const struct test_case *test, picky_table *handle) {
    struct answer answer = {0, malloc(test->room ? test->room : 1), test->room + 1};
    if (!answer.line) exit(100);
    memset(answer.line, 0xA5, test->room);
    answer.status = called(test, handle, answer.line, &answer.written);
    if (answer.written > test->room) { fprintf(stderr, "more is written than the buffer has\n"); exit(101); }
    for (size_t at = answer.written; at < test->room; at++) if (answer.line[at] != 0xA5) { fprintf(stderr, "the buffer has changed behind the line\n"); exit(101); }
    return answer;
}
#endif
