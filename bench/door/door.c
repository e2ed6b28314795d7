/* How long OpenSSL takes to read the signed data of a signature: for bench/door/door.py.
 *
 *     door FILE TIMES
 *
 * FILE has a WIN_CERTIFICATE. Printed are the microseconds of processor time that `d2i_PKCS7` takes,
 * and those that `d2i_X509_PUBKEY` takes for the keys of its certificates, together.
 */

#include <openssl/pkcs7.h>
#include <openssl/x509.h>
#include <stdio.h>
#include <stdlib.h>
#include <time.h>

enum { HEADER = 8 };

static double now(void)
{
    struct timespec at;
    clock_gettime(CLOCK_THREAD_CPUTIME_ID, &at);
    return 1e6 * at.tv_sec + 1e-3 * at.tv_nsec;
}

int main(int argc, char **argv)
{
    FILE *file = argc == 3 ? fopen(argv[1], "rb") : NULL;
    static unsigned char octets[1 << 20];
    size_t length = file == NULL ? 0 : fread(octets, 1, sizeof octets, file);
    long times = argc == 3 ? atol(argv[2]) : 0;
    if (length <= HEADER || times < 1)
        return 2;
    const unsigned char *at = octets + HEADER;
    PKCS7 *kept = d2i_PKCS7(NULL, &at, length - HEADER);
    if (kept == NULL)
        return 2;
    double start = now();
    for (long round = 0; round < times; round++) {
        at = octets + HEADER;
        PKCS7_free(d2i_PKCS7(NULL, &at, length - HEADER));
    }
    double whole = (now() - start) / times, keys = 0;
    STACK_OF(X509) *certificates = kept->d.sign->cert;
    for (int place = 0; place < sk_X509_num(certificates); place++) {
        unsigned char *key = NULL;
        int key_length = i2d_X509_PUBKEY(X509_get_X509_PUBKEY(sk_X509_value(certificates, place)), &key);
        start = now();
        for (long round = 0; round < times; round++) {
            at = key;
            X509_PUBKEY_free(d2i_X509_PUBKEY(NULL, &at, key_length));
        }
        keys += (now() - start) / times;
        OPENSSL_free(key);
    }
    printf("%.1f %.1f\n", whole, keys);
    return 0;
}
