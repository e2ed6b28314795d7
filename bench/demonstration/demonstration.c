/* A demonstration of issuing by OpenSSL, without arithmetic: for bench/demonstration/demonstration.py.
 *
 *     demonstration FILE MOMENT
 *
 * FILE has the steps as `demo_lines.py --steps` prints them; MOMENT is in seconds. The certificate of
 * each step is built, written, read again, and verified over all its ancestors, but for its
 * signature, which is the digest of the demonstration scheme. The line of `picky demo` is printed.
 */

#include <openssl/evp.h>
#include <openssl/sha.h>
#include <openssl/x509.h>
#include <openssl/x509v3.h>
#include <stdio.h>
#include <stdlib.h>
#include <string.h>
#include <time.h>

enum { MOST_STEPS = 200 };

struct step {
    int issuer; /* -1 of a root */
    int ca;
    int path_length; /* -1 for none */
    int first, last;
};

static struct step steps[MOST_STEPS];
static X509 *certificates[MOST_STEPS];
static time_t moment;

static void fail(const char *why)
{
    fprintf(stderr, "demonstration: %s\n", why);
    exit(1);
}

static int read_steps(FILE *file)
{
    int count = 0, index;
    char issuer[8], flag[8], length[8], verdict[8];
    struct step *at = steps;
    while (count < MOST_STEPS
        && fscanf(file, "%d %7s %7s %7s %d %d %7s", &index, issuer, flag, length, &at->first, &at->last, verdict) == 7) {
        at->issuer = issuer[0] == '-' ? -1 : atoi(issuer);
        at->ca = flag[0] == 'c';
        at->path_length = length[0] == '-' ? -1 : atoi(length);
        at++, count++;
    }
    return count;
}

static void digest_of(const unsigned char *octets, size_t length, unsigned char digest[SHA256_DIGEST_LENGTH])
{
    if (EVP_Digest(octets, length, digest, NULL, EVP_sha256(), NULL) != 1)
        fail("no digest");
}

/* The RSAPublicKey of a step: the modulus 01 and the index in three octets, the exponent 3. */
static const unsigned char *rsa_key(int index)
{
    static unsigned char key[] = {0x30, 9, 2, 4, 1, 0, 0, 0, 2, 1, 3};
    key[5] = index >> 16, key[6] = index >> 8, key[7] = index;
    return key;
}

enum { RSA_KEY_LENGTH = 11 };

static void set_key(X509 *made, int index)
{
    unsigned char *key = OPENSSL_memdup(rsa_key(index), RSA_KEY_LENGTH);
    if (key == NULL || !X509_PUBKEY_set0_param(X509_get_X509_PUBKEY(made), OBJ_nid2obj(NID_rsaEncryption), V_ASN1_NULL, NULL, key, RSA_KEY_LENGTH))
        fail("no key");
}

static void set_year(ASN1_TIME *time, int year)
{
    char text[16];
    snprintf(text, sizeof text, "%02d0101000000Z", year % 100);
    if (!ASN1_TIME_set_string(time, text))
        fail("no time");
}

static void set_name(X509_NAME *name, int index)
{
    char text[8];
    snprintf(text, sizeof text, "N%d", index);
    if (!X509_NAME_add_entry_by_NID(name, NID_commonName, V_ASN1_UTF8STRING, (unsigned char *)text, -1, -1, 0))
        fail("no name");
}

static void add_octets(X509 *made, int nid, const unsigned char *octets, int length)
{
    ASN1_OCTET_STRING *value = ASN1_OCTET_STRING_new();
    ASN1_OCTET_STRING_set(value, octets, length);
    X509_EXTENSION *extension = X509_EXTENSION_create_by_NID(NULL, nid, 0, value);
    if (extension == NULL || !X509_add_ext(made, extension, -1))
        fail("no extension");
    X509_EXTENSION_free(extension);
    ASN1_OCTET_STRING_free(value);
}

/* Basic constraints with the flag, whichever it is, which OpenSSL writes only if it is TRUE. */
static void add_constraints(X509 *made, const struct step *step)
{
    unsigned char octets[] = {0x30, 3, 1, 1, step->ca ? 0xff : 0, 2, 1, step->path_length};
    octets[1] = step->path_length < 0 ? 3 : 6;
    add_octets(made, NID_basic_constraints, octets, 2 + octets[1]);
}

/* The identifiers of both keys, the own by SHA-256. */
static void add_identifiers(X509 *made, const X509 *issuer)
{
    unsigned char *key = NULL, digest[SHA256_DIGEST_LENGTH];
    int length = i2d_X509_PUBKEY(X509_get_X509_PUBKEY(made), &key);
    digest_of(key, length, digest);
    OPENSSL_free(key);
    ASN1_OCTET_STRING *own = ASN1_OCTET_STRING_new();
    ASN1_OCTET_STRING_set(own, digest, sizeof digest);
    X509_add1_ext_i2d(made, NID_subject_key_identifier, own, 0, X509V3_ADD_APPEND);
    AUTHORITY_KEYID *authority = AUTHORITY_KEYID_new();
    authority->keyid = issuer == NULL ? own : ASN1_OCTET_STRING_dup(X509_get0_subject_key_id((X509 *)issuer));
    X509_add1_ext_i2d(made, NID_authority_key_identifier, authority, 0, X509V3_ADD_APPEND);
    if (issuer != NULL)
        ASN1_OCTET_STRING_free(own);
    AUTHORITY_KEYID_free(authority);
}

/* The algorithm and the signature where X509_sign would put them. */
static void sign(X509 *made, int signer)
{
    static const unsigned char name[] = "rsa-sha256";
    const ASN1_BIT_STRING *signature;
    const X509_ALGOR *outer;
    X509_get0_signature(&signature, &outer, made);
    ASN1_OBJECT *algorithm = OBJ_nid2obj(NID_sha256WithRSAEncryption);
    X509_ALGOR_set0((X509_ALGOR *)outer, algorithm, V_ASN1_NULL, NULL);
    X509_ALGOR_set0((X509_ALGOR *)X509_get0_tbs_sigalg(made), algorithm, V_ASN1_NULL, NULL);
    unsigned char *tbs = NULL, digest[SHA256_DIGEST_LENGTH];
    int length = i2d_re_X509_tbs(made, &tbs);
    digest_of(rsa_key(signer), RSA_KEY_LENGTH, digest);
    EVP_MD_CTX *context = EVP_MD_CTX_new();
    EVP_DigestInit_ex(context, EVP_sha256(), NULL);
    EVP_DigestUpdate(context, name, sizeof name); /* with the 00 behind it */
    EVP_DigestUpdate(context, digest, sizeof digest);
    EVP_DigestUpdate(context, tbs, length);
    EVP_DigestFinal_ex(context, digest, NULL);
    EVP_MD_CTX_free(context);
    OPENSSL_free(tbs);
    ASN1_BIT_STRING *bits = (ASN1_BIT_STRING *)signature;
    ASN1_BIT_STRING_set(bits, digest, sizeof digest);
    bits->flags &= ~(ASN1_STRING_FLAG_BITS_LEFT | 7);
    bits->flags |= ASN1_STRING_FLAG_BITS_LEFT;
}

static X509 *built(int index)
{
    const struct step *step = &steps[index];
    int signer = step->issuer < 0 ? index : step->issuer;
    X509 *made = X509_new();
    X509_set_version(made, 2);
    ASN1_INTEGER_set(X509_get_serialNumber(made), index + 1);
    set_name(X509_get_issuer_name(made), signer);
    set_year(X509_getm_notBefore(made), step->first);
    set_year(X509_getm_notAfter(made), step->last);
    set_name(X509_get_subject_name(made), index);
    set_key(made, index);
    add_constraints(made, step);
    add_identifiers(made, step->issuer < 0 ? NULL : certificates[step->issuer]);
    sign(made, signer);
    return made;
}

/* Written and read again, and taken into the digest of all. */
static X509 *read_again(X509 *made, EVP_MD_CTX *all)
{
    unsigned char *octets = NULL;
    int length = i2d_X509(made, &octets);
    const unsigned char *at = octets;
    X509 *read = d2i_X509(NULL, &at, length);
    if (read == NULL || at != octets + length)
        fail("not read");
    EVP_DigestUpdate(all, octets, length);
    OPENSSL_free(octets);
    X509_free(made);
    return read;
}

/* In the place of internal_verify: the times of each certificate, and no signature. */
static int without_arithmetic(X509_STORE_CTX *context)
{
    STACK_OF(X509) *chain = X509_STORE_CTX_get0_chain(context);
    for (int place = 0; place < sk_X509_num(chain); place++) {
        X509 *certificate = sk_X509_value(chain, place);
        if (ASN1_TIME_cmp_time_t(X509_get0_notBefore(certificate), moment) > 0
            || ASN1_TIME_cmp_time_t(X509_get0_notAfter(certificate), moment) < 0)
            return 0;
    }
    return 1;
}

/* Whether the certificate is accepted over its ancestors, of which the last has to be a CA's. */
static int is_accepted(int index)
{
    X509_STORE *store = X509_STORE_new();
    X509_STORE_CTX *context = X509_STORE_CTX_new();
    STACK_OF(X509) *others = sk_X509_new_null();
    int root = index;
    for (; steps[root].issuer >= 0; root = steps[root].issuer)
        if (root != index)
            sk_X509_push(others, certificates[root]);
    X509_STORE_add_cert(store, certificates[root]);
    X509_STORE_set_verify(store, without_arithmetic);
    X509_STORE_CTX_init(context, store, certificates[index], others);
    X509_VERIFY_PARAM_set_time(X509_STORE_CTX_get0_param(context), moment);
    int accepted = X509_verify_cert(context) == 1 && X509_check_ca(certificates[root]) == 1;
    sk_X509_free(others);
    X509_STORE_CTX_free(context);
    X509_STORE_free(store);
    return accepted;
}

int main(int argc, char **argv)
{
    FILE *file = argc == 3 ? fopen(argv[1], "r") : NULL;
    if (file == NULL)
        return 2;
    moment = atol(argv[2]);
    int count = read_steps(file), roots = 0, accepted = 0;
    unsigned char sum[SHA256_DIGEST_LENGTH];
    EVP_MD_CTX *all = EVP_MD_CTX_new();
    EVP_DigestInit_ex(all, EVP_sha256(), NULL);
    for (int index = 0; index < count; index++)
        certificates[index] = read_again(built(index), all);
    EVP_DigestFinal_ex(all, sum, NULL);
    for (int index = 0; index < count; index++) {
        roots += steps[index].issuer < 0;
        accepted += is_accepted(index);
    }
    printf("demo steps=%d roots=%d accepted=%d sum=", count, roots, accepted);
    for (size_t at = 0; at < sizeof sum; at++)
        printf("%02x", sum[at]);
    printf("\n");
    return 0;
}
