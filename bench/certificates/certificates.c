/* How long Mbed TLS takes to read certificates: for bench/certificates/certificates.py.
 *
 *     certificates FILE TIMES
 *
 * FILE has certificates one after another.  For each way a line is printed: its name, for each
 * certificate 1 where it is read and 0 where it isn't, the nanoseconds that all took together, and
 * a sum over what was read.
 */

#include <mbedtls/x509_crt.h>
#include <stdio.h>
#include <stdlib.h>
#include <time.h>

typedef int (*way)(mbedtls_x509_crt *, const unsigned char *, size_t);

struct span { const unsigned char *octets; size_t length; };

/* The length of the element that octets begin with; they are well formed. */
static size_t whole(const unsigned char *octets)
{
    size_t length = octets[1], count = length & 0x7F;
    if (length < 0x80)
        return 2 + length;
    length = 0;
    for (size_t i = 0; i < count; i++)
        length = length << 8 | octets[2 + i];
    return 2 + count + length;
}

static size_t read_one(way parse, struct span one, int *is_read)
{
    mbedtls_x509_crt certificate;
    mbedtls_x509_crt_init(&certificate);
    *is_read = parse(&certificate, one.octets, one.length) == 0;
    size_t number = *is_read ? certificate.tbs.len : 0;
    mbedtls_x509_crt_free(&certificate);
    return number;
}

static unsigned long long now(void)
{
    struct timespec at;
    clock_gettime(CLOCK_THREAD_CPUTIME_ID, &at);
    return at.tv_sec * 1000000000ULL + at.tv_nsec;
}

static void print_way(const char *name, way parse, const struct span *all, size_t count, long times)
{
    int is_read;
    size_t sum = 0;
    printf("%s ", name);
    for (size_t i = 0; i < count; i++) {
        read_one(parse, all[i], &is_read);
        putchar(is_read ? '1' : '0');
    }
    unsigned long long start = now();
    for (long round = 0; round < times; round++)
        for (size_t i = 0; i < count; i++)
            sum += read_one(parse, all[i], &is_read);
    printf(" %llu %zu\n", now() - start, sum);
}

int main(int argc, char **argv)
{
    FILE *file = argc == 3 ? fopen(argv[1], "rb") : NULL;
    if (file == NULL || fseek(file, 0, SEEK_END) != 0)
        return 2;
    size_t size = ftell(file), count = 0;
    rewind(file);
    unsigned char *octets = malloc(size);
    struct span *all = malloc((size / 2 + 1) * sizeof *all);
    if (octets == NULL || all == NULL || fread(octets, 1, size, file) != size)
        return 2;
    for (size_t at = 0; at < size; at += all[count++].length)
        all[count] = (struct span){octets + at, whole(octets + at)};
    print_way("mbedtls", mbedtls_x509_crt_parse_der, all, count, atol(argv[2]));
    print_way("mbedtls_nocopy", mbedtls_x509_crt_parse_der_nocopy, all, count, atol(argv[2]));
    return 0;
}
