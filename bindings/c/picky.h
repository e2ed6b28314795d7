/* picky: checks of Authenticode signatures, in the caller's process.
 *
 * A call returns an exit status of the command line program, and copies the line that the program
 * prints to the start of a buffer. That the status is 0 only where the table vouches for the signature,
 * over exactly these octets, is proved of the library; that this header declares what was proved isn't.
 *
 * Status 0 isn't enough to install a program. An accepted signature with an empty `path=` is
 * vouched for by nobody: anyone can make its certificate. A path is worth what its last certificate
 * is, since no root is checked. So compare the whole line with the one that you expect, and pin the
 * signer's key (a table without rows of other keys) or find a path to a root that you trust (as the
 * last certificate of picky_chain_bytes): docs/MANUAL.md, "Who signed".
 *
 * What a caller must uphold:
 *   - each pointer is aligned for its type and points to as many octets, `lengths` to as many numbers, as
 *     the length behind it says, all of them initialised, *written too; none is NULL, even with the
 *     length 0 (any other pointer that is aligned for its type will do then);
 *   - nothing that is passed is changed while the call runs, by another thread or by another process
 *     that has a file mapped;
 *   - the buffer, *written and a handle overlap with nothing else that is passed;
 *   - a handle is PICKY_NO_TABLE or what a call left in it, is copied to no second handle that is
 *     used, and is used by one call at a time; from thread to thread it goes by a lock, or by the start
 *     or the join of one;
 *   - malloc, realloc and free, which the library calls, are of one allocator, align a block to each
 *     power of two up to 16 that divides its size, and may be called by several threads where calls are;
 *   - a call ends by its return alone: no longjmp and no exception out of malloc or a signal handler,
 *     and no cancellation of its thread meanwhile;
 *   - the stack has room: 48 KiB is the most that was measured of the programs, and none is proved;
 *   - no call from a signal handler, and none in the child of a fork of a process with threads.
 * A length counts octets, `count` files. But for handles nothing is kept between calls, so threads may
 * call at once. A call takes as many octets of memory as its buffer has, and more for what it reads, so
 * with a huge buffer it may run out. That it gives back what it takes, but for a handle's, is tested and
 * not proved. Link libpicky_door.a and liblibc_c.a. */
#ifndef PICKY_H
#define PICKY_H

#include <stddef.h>
#include <stdint.h>

#ifdef __cplusplus
extern "C" {
#endif

/* What a call returns. */
enum picky_status {
    PICKY_ACCEPTED = 0,      /* the line says which certificates vouch for the signer's, none where
                              * `path=` is empty; of picky_ask_bytes a line for each question, or none */
    PICKY_REFUSED = 1,       /* the line names the cause */
    PICKY_USAGE = 2,         /* the words request nothing; no line, as with all that follow */
    PICKY_BAD_TABLE = 3,     /* the table has a bad line */
    PICKY_NO_FILE = 4,       /* the words name a file that isn't among those of the call, or TABLE
                              * where a handle is empty */
    PICKY_NO_ROOM = 5,       /* the line is longer than the buffer, which holds none of it */
    PICKY_TOO_LONG = 6,      /* a file has more than PICKY_LONGEST octets */
    PICKY_OUT_OF_MEMORY = 7
};

/* The most octets that a file may have. */
#define PICKY_LONGEST 16777216

/* The commands `basic` and `check`: words, one a line, no newline at the end (no octets are one
 * empty word), that name the files SIG, TABLE and, where there is a trust list, LIST, such as
 *     check\nSIG\nTABLE\n1f8a9e..\n2023-06-15
 *     check\nSIG\nTABLE\n1f8a9e..\n2023-06-15\n--list\nLIST\n133312345678
 * (docs/MANUAL.md). A newline makes two words of one, so look for it in a word from outside.
 * `signature` holds a WIN_CERTIFICATE, `table` a verdict table. A line ends with
 * a newline and no zero; *written is its length, 0 where there is none. */
uint8_t picky_check_bytes(const uint8_t *words, size_t words_length,
                          const uint8_t *signature, size_t signature_length,
                          const uint8_t *table, size_t table_length,
                          const uint8_t *list, size_t list_length,
                          uint8_t *line, size_t line_length, size_t *written);

/* The program `picky_pe`: the same for a signed program, with words that name PROGRAM, TABLE and
 * LIST, such as
 *     PROGRAM\nTABLE\n2023-06-15 */
uint8_t picky_pe_bytes(const uint8_t *words, size_t words_length,
                       const uint8_t *program, size_t program_length,
                       const uint8_t *table, size_t table_length,
                       const uint8_t *list, size_t list_length,
                       uint8_t *line, size_t line_length, size_t *written);

/* The command `chain`: words name the file TABLE and the certificates 0, 1 and so on, at most 32, such as
 *     chain\nTABLE\n2023-06-15\n0\n1\n2
 * The certificates stand one after another; `lengths` has the length of each, and `count` says how
 * many there are. Where the octets end a file ends, and lengths behind the 32nd are ignored. */
uint8_t picky_chain_bytes(const uint8_t *words, size_t words_length,
                          const uint8_t *table, size_t table_length,
                          const uint8_t *certificates, size_t certificates_length,
                          const size_t *lengths, size_t count,
                          uint8_t *line, size_t line_length, size_t *written);

/* The program `picky_ask`: a line for each signature that a check may ask about. Words name the files
 * 0, 1 and so on, at most 32, which stand one after another as above: `0` for a signature file,
 * `--chain\n0\n1\n2` for certificates. The lines may be many times as long as the files. */
uint8_t picky_ask_bytes(const uint8_t *words, size_t words_length,
                        const uint8_t *files, size_t files_length,
                        const size_t *lengths, size_t count,
                        uint8_t *lines, size_t lines_length, size_t *written);

/* A verdict table that was parsed once, for many calls. It keeps the table's text and rows
 * until it is freed. `inside` is the library's. */
typedef struct picky_table { void *inside; } picky_table;

/* A handle without a table, to begin with: picky_table table = PICKY_NO_TABLE; */
#define PICKY_NO_TABLE { 0 }

/* Parses a verdict table, and copies its text, which may be freed then. Returns PICKY_ACCEPTED, and the handle has this table, in the place of what it
 * had, which is freed; or PICKY_BAD_TABLE or PICKY_OUT_OF_MEMORY, and it keeps what it had. The table of a text of
 * more than PICKY_LONGEST octets is parsed too; to calls with it the file TABLE is too long. */
uint8_t picky_table_parse(const uint8_t *text, size_t text_length, picky_table *table);

/* Frees what a handle has, and leaves PICKY_NO_TABLE; so it may be called twice. */
void picky_table_free(picky_table *table);

/* The calls above with the table of a handle, which keeps it. They answer what those answer for the
 * handle's text as the file TABLE; of an empty handle there is no file TABLE. */
uint8_t picky_check_with_table(const uint8_t *words, size_t words_length,
                               const uint8_t *signature, size_t signature_length,
                               picky_table *table,
                               const uint8_t *list, size_t list_length,
                               uint8_t *line, size_t line_length, size_t *written);

uint8_t picky_pe_with_table(const uint8_t *words, size_t words_length,
                            const uint8_t *program, size_t program_length,
                            picky_table *table,
                            const uint8_t *list, size_t list_length,
                            uint8_t *line, size_t line_length, size_t *written);

uint8_t picky_chain_with_table(const uint8_t *words, size_t words_length,
                               picky_table *table,
                               const uint8_t *certificates, size_t certificates_length,
                               const size_t *lengths, size_t count,
                               uint8_t *line, size_t line_length, size_t *written);

#ifdef __cplusplus
}
#endif
#endif
