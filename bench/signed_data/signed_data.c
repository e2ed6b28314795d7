/* How long OpenSSL and GnuTLS take to read signed data: for bench/signed_data/signed_data.py.
 *
 *     signed_data FILE TIMES
 *
 * For each way a line is printed: its name, 1 where the file is read and 0 where it isn't, the
 * nanoseconds that all took together, and a sum over what was read.
 */

#include <gnutls/pkcs7.h>
#include <openssl/pkcs7.h>
#include <stdio.h>
#include <stdlib.h>
#include <time.h>

typedef size_t (*way)(const unsigned char *, size_t);

static size_t with_openssl(const unsigned char *octets, size_t length)
{
    const unsigned char *at = octets;
    PKCS7 *read = d2i_PKCS7(NULL, &at, length);
    size_t taken = read == NULL ? 0 : at - octets;
    PKCS7_free(read);
    return taken;
}

static size_t with_gnutls(const unsigned char *octets, size_t length)
{
    gnutls_pkcs7_t read;
    gnutls_datum_t given = {(unsigned char *)octets, length};
    if (gnutls_pkcs7_init(&read) != 0)
        return 0;
    size_t taken = gnutls_pkcs7_import(read, &given, GNUTLS_X509_FMT_DER) == 0 ? length : 0;
    gnutls_pkcs7_deinit(read);
    return taken;
}

static unsigned long long now(void)
{
    struct timespec at;
    clock_gettime(CLOCK_THREAD_CPUTIME_ID, &at);
    return at.tv_sec * 1000000000ULL + at.tv_nsec;
}

static void print_way(const char *name, way read, const unsigned char *octets, size_t length, long times)
{
    int is_read = read(octets, length) == length;
    size_t sum = 0;
    unsigned long long start = now();
    for (long round = 0; round < times; round++)
        sum += read(octets, length);
    printf("%s %d %llu %zu\n", name, is_read, now() - start, sum);
}

int main(int argc, char **argv)
{
    FILE *file = argc == 3 ? fopen(argv[1], "rb") : NULL;
    if (file == NULL || fseek(file, 0, SEEK_END) != 0)
        return 2;
    size_t length = ftell(file);
    rewind(file);
    unsigned char *octets = malloc(length);
    if (octets == NULL || fread(octets, 1, length, file) != length)
        return 2;
    print_way("openssl", with_openssl, octets, length, atol(argv[2]));
    print_way("gnutls", with_gnutls, octets, length, atol(argv[2]));
    return 0;
}
