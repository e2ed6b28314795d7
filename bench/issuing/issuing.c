/* How long OpenSSL takes to judge a chain and to build a certificate, without arithmetic: for
 * bench/issuing/issuing.py.
 *
 *     issuing FILE TIMES MOMENT
 *
 * FILE has a certificate, that of its issuer and a root, one after another; MOMENT is in seconds. For
 * each job a line is printed: its name, 1 where it is done and 0 where it isn't, the nanoseconds that
 * all took together, and a sum.
 */

#include <openssl/evp.h>
#include <openssl/sha.h>
#include <openssl/x509.h>
#include <openssl/x509v3.h>
#include <stdio.h>
#include <stdlib.h>
#include <string.h>
#include <time.h>

static const unsigned char *file_octets;
static long file_length;
static time_t moment;
static X509 *given[3];

/* In the place of internal_verify: the times of each certificate, and no signature. */
static int without_arithmetic(X509_STORE_CTX *context)
{
    STACK_OF(X509) *chain = X509_STORE_CTX_get0_chain(context);
    for (int place = 0; place < sk_X509_num(chain); place++) {
        X509 *certificate = sk_X509_value(chain, place);
        if (X509_cmp_time(X509_get0_notBefore(certificate), &moment) >= 0
            || X509_cmp_time(X509_get0_notAfter(certificate), &moment) <= 0)
            return 0;
    }
    return 1;
}

static size_t judge(X509 *certificates[3])
{
    X509_STORE *store = X509_STORE_new();
    X509_STORE_CTX *context = X509_STORE_CTX_new();
    STACK_OF(X509) *others = sk_X509_new_null();
    sk_X509_push(others, certificates[1]);
    X509_STORE_add_cert(store, certificates[2]);
    X509_STORE_set_verify(store, without_arithmetic);
    X509_STORE_CTX_init(context, store, certificates[0], others);
    X509_VERIFY_PARAM_set_time(X509_STORE_CTX_get0_param(context), moment);
    int accepted = X509_verify_cert(context);
    sk_X509_free(others);
    X509_STORE_CTX_free(context);
    X509_STORE_free(store);
    return accepted == 1 ? 3 : 0;
}

static size_t judged(void)
{
    return judge(given);
}

static int read_all(X509 *certificates[3])
{
    const unsigned char *at = file_octets;
    for (int place = 0; place < 3; place++)
        if ((certificates[place] = d2i_X509(NULL, &at, file_octets + file_length - at)) == NULL)
            return 0;
    return 1;
}

static size_t read_and_judged(void)
{
    X509 *certificates[3];
    size_t done = read_all(certificates) ? judge(certificates) : 0;
    for (int place = 0; place < 3; place++)
        X509_free(certificates[place]);
    return done;
}

static void add_extension(X509 *made, int nid, int critical, void *value)
{
    X509_add1_ext_i2d(made, nid, value, critical, X509V3_ADD_APPEND);
}

/* Basic constraints, key usage, and the identifiers of both keys, the own by SHA-256. */
static void add_extensions(X509 *made)
{
    BASIC_CONSTRAINTS *constraints = BASIC_CONSTRAINTS_new();
    add_extension(made, NID_basic_constraints, 1, constraints);
    BASIC_CONSTRAINTS_free(constraints);
    ASN1_BIT_STRING *usage = ASN1_BIT_STRING_new();
    ASN1_BIT_STRING_set_bit(usage, 0, 1);
    add_extension(made, NID_key_usage, 1, usage);
    ASN1_BIT_STRING_free(usage);
    unsigned char *key = NULL, digest[SHA256_DIGEST_LENGTH];
    int length = i2d_X509_PUBKEY(X509_get_X509_PUBKEY(made), &key);
    EVP_Digest(key, length, digest, NULL, EVP_sha256(), NULL);
    OPENSSL_free(key);
    ASN1_OCTET_STRING *own = ASN1_OCTET_STRING_new();
    ASN1_OCTET_STRING_set(own, digest, sizeof digest);
    add_extension(made, NID_subject_key_identifier, 0, own);
    ASN1_OCTET_STRING_free(own);
    AUTHORITY_KEYID *authority = AUTHORITY_KEYID_new();
    authority->keyid = ASN1_OCTET_STRING_dup(X509_get0_subject_key_id(given[1]));
    add_extension(made, NID_authority_key_identifier, 0, authority);
    AUTHORITY_KEYID_free(authority);
}

/* The algorithm and 256 octets in the places where X509_sign would put them. */
static void sign_with_octets(X509 *made)
{
    static const unsigned char octets[256] = {0xaa};
    const ASN1_BIT_STRING *signature;
    const X509_ALGOR *outer;
    X509_get0_signature(&signature, &outer, made);
    ASN1_OBJECT *algorithm = OBJ_nid2obj(NID_sha256WithRSAEncryption);
    X509_ALGOR_set0((X509_ALGOR *)outer, algorithm, V_ASN1_NULL, NULL);
    X509_ALGOR_set0((X509_ALGOR *)X509_get0_tbs_sigalg(made), algorithm, V_ASN1_NULL, NULL);
    ASN1_BIT_STRING_set((ASN1_BIT_STRING *)signature, (unsigned char *)octets, sizeof octets);
}

static size_t built(void)
{
    X509 *made = X509_new();
    X509_set_version(made, 2);
    ASN1_INTEGER_set(X509_get_serialNumber(made), 7);
    X509_set_issuer_name(made, X509_get_subject_name(given[1]));
    X509_set1_notBefore(made, X509_get0_notBefore(given[0]));
    X509_set1_notAfter(made, X509_get0_notAfter(given[0]));
    X509_set_subject_name(made, X509_get_subject_name(given[0]));
    X509_set_pubkey(made, X509_get0_pubkey(given[0]));
    add_extensions(made);
    sign_with_octets(made);
    unsigned char *octets = NULL;
    int length = i2d_X509(made, &octets);
    OPENSSL_free(octets);
    X509_free(made);
    return length > 0 ? length : 0;
}

static unsigned long long now(void)
{
    struct timespec at;
    clock_gettime(CLOCK_THREAD_CPUTIME_ID, &at);
    return at.tv_sec * 1000000000ULL + at.tv_nsec;
}

static void print_job(const char *name, size_t (*job)(void), long times)
{
    int is_done = job() > 0;
    size_t sum = 0;
    unsigned long long start = now();
    for (long round = 0; round < times; round++)
        sum += job();
    printf("%s %d %llu %zu\n", name, is_done, now() - start, sum);
}

int main(int argc, char **argv)
{
    FILE *file = argc == 4 ? fopen(argv[1], "rb") : NULL;
    if (file == NULL || fseek(file, 0, SEEK_END) != 0)
        return 2;
    file_length = ftell(file);
    rewind(file);
    unsigned char *octets = malloc(file_length);
    if (octets == NULL || fread(octets, 1, file_length, file) != (size_t)file_length)
        return 2;
    file_octets = octets;
    moment = atol(argv[3]);
    if (!read_all(given))
        return 2;
    long times = atol(argv[2]);
    print_job("judged", judged, times);
    print_job("read", read_and_judged, times);
    print_job("built", built, times);
    return 0;
}
