/* example SIG TABLE HASH DATE LINE: checks a signature as `picky check` does. The status is 0 only where
 * the answer is LINE: an accepted signature with an empty `path=` is vouched for by nobody. */
#include "picky.h"
#include <stdio.h>
#include <stdlib.h>
#include <string.h>

/* The octets of a file; the process ends where it can't be read. */
static uint8_t *octets_of(const char *path, size_t *length) {
    FILE *file = fopen(path, "rb");
    if (!file || fseek(file, 0, SEEK_END)) { perror(path); exit(PICKY_NO_FILE); }
    long size = ftell(file);
    rewind(file);
    uint8_t *octets = malloc(size > 0 ? (size_t)size : 1);
    if (!octets) exit(PICKY_OUT_OF_MEMORY);
    *length = fread(octets, 1, size > 0 ? (size_t)size : 0, file);
    if (size < 0 || *length != (size_t)size) { fprintf(stderr, "%s can't be read\n", path); exit(PICKY_NO_FILE); }
    fclose(file);
    return octets;
}

int main(int count, char **words) {
    if (count != 6) {
        fprintf(stderr, "usage: example SIG TABLE HASH DATE LINE\n");
        return PICKY_USAGE;
    }
    size_t signature_length, table_length, written = 0;
    uint8_t *signature = octets_of(words[1], &signature_length), *table = octets_of(words[2], &table_length);
    char command[512];
    uint8_t line[4096] = {0};
    int length = snprintf(command, sizeof command, "check\nSIG\nTABLE\n%s\n%s", words[3], words[4]);
    if (length < 0 || (size_t)length >= sizeof command || strchr(words[3], '\n') || strchr(words[4], '\n')) return PICKY_USAGE;
    uint8_t status = picky_check_bytes((const uint8_t *)command, (size_t)length, signature, signature_length, table, table_length,
                                       (const uint8_t *)"", 0, line, sizeof line, &written);
    fwrite(line, 1, written, stdout);
    free(signature);
    free(table);
    if (status == PICKY_ACCEPTED && (written != strlen(words[5]) + 1 || memcmp(line, words[5], written - 1))) {
        fprintf(stderr, "accepted, but not as expected\n");
        return PICKY_REFUSED;
    }
    return status;
}
