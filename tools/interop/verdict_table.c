/* Prints the verdict table that libcrypto gives for the questions of picky_ask.
 *
 *     cc -O2 -o verdict_table tools/interop/verdict_table.c -lcrypto
 *     picky_ask SIG | ./verdict_table > TABLE
 *
 * A second maker of tables, beside tools/verdict_table.py, which shares nothing with it but
 * docs/FORMATS.md: rows, sentences on standard error and status are the same for every input.
 * Keys are numbers and points before they reach libcrypto, and no file is read. It takes
 * libcrypto 3.0 or later.
 */
#include <openssl/bn.h>
#include <openssl/core_names.h>
#include <openssl/ec.h>
#include <openssl/evp.h>
#include <openssl/param_build.h>
#include <stdio.h>
#include <stdlib.h>
#include <string.h>

enum { KEY, MESSAGE, SIGNATURE, PARTS, DIGITS = 64, MOST_ASKED = 10000 };
enum { MOST_MODULUS_BITS = 16384, MOST_EXPONENT_BITS = 64 };
enum verdict { NO_ROW, ACCEPT, REJECT, MALFORMED };

static const char *const WORDS[] = {NULL, "accept", "reject", "malformed"};

struct octets {
    const unsigned char *at;
    size_t length;
};

/* The algorithms of a table: the first word of a row, the kind of the key, the digest, of RSA the
   least octets of a modulus (RFC 8017 9.2), the curve, and the order of the group. */
static const struct algorithm {
    const char *name, *kind, *digest;
    size_t least;
    int curve;
    const char *order;
} ALGORITHMS[] = {
    {"rsa-md5", "rsa", "md5", 45, 0, NULL},
    {"rsa-sha1", "rsa", "sha1", 46, 0, NULL},
    {"rsa-sha224", "rsa", "sha224", 58, 0, NULL},
    {"rsa-sha256", "rsa", "sha256", 62, 0, NULL},
    {"rsa-sha384", "rsa", "sha384", 78, 0, NULL},
    {"rsa-sha512", "rsa", "sha512", 94, 0, NULL},
    {"p256-sha256", "p256", "sha256", 0, NID_X9_62_prime256v1,
     "ffffffff00000000ffffffffffffffffbce6faada7179e84f3b9cac2fc632551"},
    {"p384-sha384", "p384", "sha384", 0, NID_secp384r1,
     "ffffffffffffffffffffffffffffffffffffffffffffffffc7634d81f4372ddf581a0db248b0a77aecec196accc52973"},
    {"p521-sha512", "p521", "sha512", 0, NID_secp521r1,
     "01fffffffffffffffffffffffffffffffffffffffffffffffffffffffffffffffffa"
     "51868783bf2f966b7fcc0148f709a5d03bb5c9b8899c47aebb6fb71e91386409"},
    {"ed25519", "ed25519", NULL, 0, 0, "1000000000000000000000000000000014def9dea2f79cd65812631a5cf5d3ed"},
};

static void end(int status, const char *why)
{
    fprintf(stderr, "verdict_table: %s\n", why);
    exit(status);
}

/* Ends without a table, for what was read. */
static void stop(const char *why)
{
    end(1, why);
}

/* What libcrypto gave, which is there where there is memory. */
static void *got(void *given)
{
    if (!given)
        end(2, "out of memory");
    return given;
}

static void must(int done)
{
    if (!done)
        end(2, "libcrypto failed");
}

/* Questions. */

/* The octets of a word in lower-case digits, which take its place; 0 where it is none. */
static int read_digits(char *word, struct octets *octets)
{
    static const char digits[] = "0123456789abcdef";
    size_t length = strlen(word);
    unsigned char *to = (unsigned char *)word;
    if (length % 2 || strspn(word, digits) != length)
        return 0;
    for (size_t i = 0; i < length; i += 2)
        *to++ = (unsigned char)((strchr(digits, word[i]) - digits) << 4 | (strchr(digits, word[i + 1]) - digits));
    *octets = (struct octets){(const unsigned char *)word, length / 2};
    return 1;
}

/* The SHA-256 of octets in digits. */
static void digest_of(struct octets octets, char digits[DIGITS + 1])
{
    unsigned char digest[EVP_MAX_MD_SIZE];
    must(EVP_Digest(octets.at, octets.length, digest, NULL, EVP_sha256(), NULL));
    for (unsigned i = 0; i < DIGITS / 2; i++)
        snprintf(digits + 2 * i, 3, "%02x", digest[i]);
}

static const struct algorithm *algorithm_named(const char *name)
{
    for (size_t i = 0; i < sizeof ALGORITHMS / sizeof *ALGORITHMS; i++)
        if (!strcmp(ALGORITHMS[i].name, name))
            return &ALGORITHMS[i];
    return NULL;
}

/* Numbers in DER. */

/* The contents of the element of this tag that octets begin with (X.690 8.1.3, 10.1); `rest` goes behind it. */
static int element(struct octets *rest, unsigned char tag, struct octets *contents)
{
    if (rest->length < 2 || rest->at[0] != tag)
        return 0;
    size_t length = rest->at[1], begin = 2;
    if (length >= 0x80) {
        size_t more = length - 0x80;
        if (more < 1 || more > 4 || rest->length < 2 + more || !rest->at[2])
            return 0;
        for (length = 0; begin < 2 + more; begin++)
            length = length << 8 | rest->at[begin];
        if (length < 0x80)
            return 0;
    }
    if (rest->length - begin < length)
        return 0;
    *contents = (struct octets){rest->at + begin, length};
    *rest = (struct octets){contents->at + length, rest->length - begin - length};
    return 1;
}

/* A number above 0 in as few octets as it has (X.690 8.3). */
static int positive(struct octets *rest, BIGNUM *number)
{
    struct octets held;
    if (!element(rest, 0x02, &held) || !held.length || held.at[0] & 0x80)
        return 0;
    if (!held.at[0] && (held.length == 1 || !(held.at[1] & 0x80)))
        return 0;
    got(BN_bin2bn(held.at, (int)held.length, number));
    return 1;
}

/* A SEQUENCE of two such numbers and nothing behind. */
static int pair(struct octets octets, BIGNUM *first, BIGNUM *second)
{
    struct octets held;
    return element(&octets, 0x30, &held) && !octets.length && positive(&held, first) && positive(&held, second) && !held.length;
}

/* Keys: each is NULL where there is no row, `why`. */

static EVP_PKEY *key_by(const char *type, OSSL_PARAM *parts)
{
    EVP_PKEY *key = NULL;
    EVP_PKEY_CTX *making = got(EVP_PKEY_CTX_new_from_name(NULL, type, NULL));
    if (EVP_PKEY_fromdata_init(making) != 1 || EVP_PKEY_fromdata(making, &key, EVP_PKEY_PUBLIC_KEY, parts) != 1)
        key = NULL;
    EVP_PKEY_CTX_free(making);
    return key;
}

/* Why there is no row by the two numbers of an RSA key; NULL where there may be one. */
static const char *refusal_of_rsa(const BIGNUM *modulus, const BIGNUM *exponent)
{
    if (!BN_is_odd(modulus))
        return "the modulus of its key is even";
    if (!BN_is_odd(exponent) || BN_is_one(exponent))
        return "the exponent of its key isn't odd and 3 or more";
    if (BN_cmp(exponent, modulus) >= 0)
        return "the exponent of its key isn't below the modulus";
    if (BN_num_bits(modulus) > MOST_MODULUS_BITS)
        return "the modulus of its key has more than 16384 bits";
    return BN_num_bits(exponent) > MOST_EXPONENT_BITS ? "the exponent of its key has more than 64 bits" : NULL;
}

static EVP_PKEY *rsa_key(struct octets octets, const char **why)
{
    BIGNUM *modulus = got(BN_new()), *exponent = got(BN_new());
    EVP_PKEY *key = NULL;
    *why = pair(octets, modulus, exponent) ? refusal_of_rsa(modulus, exponent) : "its key isn't an RSAPublicKey in DER";
    if (!*why) {
        OSSL_PARAM_BLD *building = got(OSSL_PARAM_BLD_new());
        must(OSSL_PARAM_BLD_push_BN(building, OSSL_PKEY_PARAM_RSA_N, modulus)
             && OSSL_PARAM_BLD_push_BN(building, OSSL_PKEY_PARAM_RSA_E, exponent));
        OSSL_PARAM *parts = got(OSSL_PARAM_BLD_to_param(building));
        key = key_by("RSA", parts);
        OSSL_PARAM_free(parts);
        OSSL_PARAM_BLD_free(building);
    }
    BN_free(modulus);
    BN_free(exponent);
    return key;
}

/* Whether octets are 04 and both coordinates of a point, or 02 or 03 and one (SEC 1 2.3.4). */
static int is_point(const EC_GROUP *group, struct octets octets)
{
    size_t length = ((size_t)EC_GROUP_get_degree(group) + 7) / 8;
    if (!(octets.length == 1 + 2 * length && octets.at[0] == 4)
        && !(octets.length == 1 + length && (octets.at[0] == 2 || octets.at[0] == 3)))
        return 0;
    EC_POINT *point = got(EC_POINT_new(group));
    int is = EC_POINT_oct2point(group, point, octets.at, octets.length, NULL) == 1;
    EC_POINT_free(point);
    return is;
}

static EVP_PKEY *point_key(const struct algorithm *by, struct octets octets, const char **why)
{
    static char sentence[64];
    EC_GROUP *group = got(EC_GROUP_new_by_curve_name(by->curve));
    int is = is_point(group, octets);
    EC_GROUP_free(group);
    snprintf(sentence, sizeof sentence, "its key isn't a point of %s", by->kind);
    *why = is ? NULL : sentence;
    OSSL_PARAM parts[] = {
        OSSL_PARAM_construct_utf8_string(OSSL_PKEY_PARAM_GROUP_NAME, (char *)OBJ_nid2sn(by->curve), 0),
        OSSL_PARAM_construct_octet_string(OSSL_PKEY_PARAM_PUB_KEY, (void *)octets.at, octets.length),
        OSSL_PARAM_construct_end(),
    };
    return is ? key_by("EC", parts) : NULL;
}

/* Why 32 octets are no key (RFC 8032 5.1.3, 5.1.5); NULL where they are one. With t for the square of
   the second coordinate y, the points of order 1, 2, 4 and 8 are those with y (t - 1) (d t t + 2 t - 1) = 0. */
static const char *refusal_of_ed25519(const unsigned char octets[32])
{
    unsigned char unsigned_octets[32];
    memcpy(unsigned_octets, octets, 32);
    unsigned_octets[31] &= 0x7f;
    BN_CTX *room = got(BN_CTX_new());
    BN_CTX_start(room);
    BIGNUM *p = BN_CTX_get(room), *d = BN_CTX_get(room), *y = BN_CTX_get(room), *t = BN_CTX_get(room);
    BIGNUM *above = BN_CTX_get(room), *below = BN_CTX_get(room), *small = BN_CTX_get(room);
    got(small);
    /* p = 2^255 - 19, d = -121665/121666; x x = (t - 1)/(d t + 1). */
    must(BN_set_bit(p, 255) && BN_sub_word(p, 19) && BN_set_word(small, 121666) && BN_mod_inverse(d, small, p, room)
         && BN_mul_word(d, 121665) && BN_mod(d, d, p, room) && BN_sub(d, p, d));
    got(BN_lebin2bn(unsigned_octets, 32, y));
    int is_below = BN_cmp(y, p) < 0;
    must(BN_mod_sqr(t, y, p, room) && BN_copy(above, t) && BN_sub(above, above, BN_value_one()) && BN_nnmod(above, above, p, room));
    must(BN_mod_mul(below, d, t, p, room) && BN_add_word(below, 1) && BN_mod_inverse(below, below, p, room));
    /* d t t + 2 t - 1, times y (t - 1). */
    must(BN_mod_mul(small, d, t, p, room) && BN_add_word(small, 2) && BN_mod_mul(small, small, t, p, room)
         && BN_sub(small, small, BN_value_one()) && BN_mod_mul(small, small, y, p, room) && BN_mod_mul(small, small, above, p, room));
    must(BN_mod_mul(above, above, below, p, room));
    int is_square = BN_kronecker(above, p, room) >= 0;
    const char *why = !is_below || !is_square ? "its key isn't a point of ed25519"
                      : BN_is_zero(small)     ? "its key is a point of small order"
                                              : NULL;
    BN_CTX_end(room);
    BN_CTX_free(room);
    return why;
}

static EVP_PKEY *key_of(const struct algorithm *by, struct octets octets, const char **why)
{
    if (by->curve)
        return point_key(by, octets, why);
    if (by->digest)
        return rsa_key(octets, why);
    *why = octets.length != 32 ? "its key hasn't 32 octets" : refusal_of_ed25519(octets.at);
    return *why ? NULL : EVP_PKEY_new_raw_public_key(EVP_PKEY_ED25519, NULL, octets.at, octets.length);
}

/* Signatures. */

/* Whether a number is below the order of the group. */
static int is_below(const BIGNUM *number, const char *order)
{
    BIGNUM *bound = NULL;
    must(BN_hex2bn(&bound, order));
    int below = BN_cmp(number, bound) < 0;
    BN_free(bound);
    return below;
}

/* RFC 8017 8.2.2 steps 1 and 3, 5.2.2; -1 where the modulus is too short. */
static int has_form_of_rsa(const struct algorithm *by, EVP_PKEY *key, struct octets signature)
{
    BIGNUM *modulus = NULL;
    must(EVP_PKEY_get_bn_param(key, OSSL_PKEY_PARAM_RSA_N, &modulus));
    size_t length = (size_t)BN_num_bytes(modulus);
    int has = length < by->least ? -1 : signature.length == length;
    if (has == 1) {
        BIGNUM *number = got(BN_bin2bn(signature.at, (int)signature.length, NULL));
        has = BN_cmp(number, modulus) < 0;
        BN_free(number);
    }
    BN_free(modulus);
    return has;
}

/* RFC 3279 2.2.3, SEC 1 4.1.4. */
static int has_form_of_ecdsa(const char *order, struct octets signature)
{
    BIGNUM *r = got(BN_new()), *s = got(BN_new());
    int has = pair(signature, r, s) && is_below(r, order) && is_below(s, order);
    BN_free(r);
    BN_free(s);
    return has;
}

/* RFC 8032 5.1.7, without decoding R. */
static int has_form_of_ed25519(const char *order, struct octets signature)
{
    if (signature.length != 64)
        return 0;
    BIGNUM *number = got(BN_lebin2bn(signature.at + 32, 32, NULL));
    int has = is_below(number, order);
    BN_free(number);
    return has;
}

static enum verdict verified(const struct algorithm *by, EVP_PKEY *key, const struct octets *parts, const char **why)
{
    EVP_MD_CTX *checking = got(EVP_MD_CTX_new());
    enum verdict found = NO_ROW;
    *why = "the library doesn't compute with its algorithm or key";
    if (EVP_DigestVerifyInit_ex(checking, NULL, by->digest, NULL, NULL, key, NULL) == 1) {
        struct octets message = parts[MESSAGE], signature = parts[SIGNATURE];
        found = EVP_DigestVerify(checking, signature.at, signature.length, message.at, message.length) == 1 ? ACCEPT : REJECT;
    }
    EVP_MD_CTX_free(checking);
    return found;
}

/* The verdict; NO_ROW, `why`. */
static enum verdict verdict_on(const struct algorithm *by, const struct octets *parts, const char **why)
{
    static char sentence[64];
    EVP_PKEY *key = key_of(by, parts[KEY], why);
    if (!key) {
        *why = *why ? *why : "the library doesn't compute with its algorithm or key";
        return NO_ROW;
    }
    struct octets signature = parts[SIGNATURE];
    int has = by->curve    ? has_form_of_ecdsa(by->order, signature)
              : by->digest ? has_form_of_rsa(by, key, signature)
                           : has_form_of_ed25519(by->order, signature);
    enum verdict found = has == 1 ? verified(by, key, parts, why) : has == 0 ? MALFORMED : NO_ROW;
    if (has < 0) {
        snprintf(sentence, sizeof sentence, "the modulus of its key is too short for %s", by->digest);
        *why = sentence;
    }
    EVP_PKEY_free(key);
    return found;
}

/* The table. */

static struct row {
    char *text;
    enum verdict found;
} rows[MOST_ASKED];
static size_t rows_kept, asked;
static char asked_before[MOST_ASKED][DIGITS + 1];
/* What isn't accepted, printed behind the table. */
static char *lacking[MOST_ASKED];
static size_t lacking_kept;

static void stop_at(const char *what, const char *part)
{
    char sentence[160];
    snprintf(sentence, sizeof sentence, "question %zu %s%s", asked, what, part);
    stop(sentence);
}

/* Whether a line is another than those before it. */
static int is_new(const char *line, size_t length)
{
    char digits[DIGITS + 1];
    digest_of((struct octets){(const unsigned char *)line, length}, digits);
    for (size_t i = 0; i < asked; i++)
        if (!strcmp(asked_before[i], digits))
            return 0;
    if (asked == MOST_ASKED)
        stop("more than 10000 signatures are asked for");
    memcpy(asked_before[asked++], digits, sizeof digits);
    return 1;
}

/* Keeps the row, unless it was kept. */
static void keep(const char *text, enum verdict found)
{
    for (size_t i = 0; i < rows_kept; i++)
        if (!strcmp(rows[i].text, text)) {
            if (rows[i].found != found)
                stop_at("has the row of an earlier one and another verdict", "");
            return;
        }
    rows[rows_kept++] = (struct row){got(strdup(text)), found};
}

static void keep_lacking(enum verdict found, const char *name, const char *why)
{
    char line[256];
    if (found == NO_ROW)
        snprintf(line, sizeof line, "question %zu: it has no row: %s", asked, why);
    else
        snprintf(line, sizeof line, "question %zu: %s as %s", asked, found == REJECT ? "not accepted" : "malformed", name);
    lacking[lacking_kept++] = got(strdup(line));
}

/* Whether a line is `refused` and the name of a refusal. */
static int is_refusal(const char *line)
{
    static const char letters[] = "ABCDEFGHIJKLMNOPQRSTUVWXYZabcdefghijklmnopqrstuvwxyz0123456789:";
    size_t length = strncmp(line, "refused ", 8) ? 0 : strlen(line + 8);
    return length && length <= 80 && strspn(line + 8, letters) == length;
}

/* The algorithm, the row and the three parts of a line, which is cut into its words; NULL where it is no question. */
static const struct algorithm *question_in(char *line, char *row, size_t room, struct octets *parts, const char **digests)
{
    char *words[7], *rest = line;
    for (int i = 0; i < 7; i++)
        if (!(words[i] = strsep(&rest, " ")))
            return NULL;
    if (rest || snprintf(row, room, "%s %s %s %s", words[0], words[1], words[2], words[3]) >= (int)room)
        return NULL;
    for (int i = 0; i < PARTS; i++) {
        digests[i] = words[1 + i];
        if (strlen(digests[i]) != DIGITS || strspn(digests[i], "0123456789abcdef") != DIGITS || !read_digits(words[4 + i], &parts[i]))
            return NULL;
    }
    return algorithm_named(words[0]);
}

/* The algorithm of a line that is a question; it stops at any other. */
static const struct algorithm *read_question(char *line, size_t length, char *row, size_t room, struct octets *parts)
{
    static const char *const NAMES[] = {"key", "message", "signature"};
    const char *digests[PARTS];
    char digits[DIGITS + 1], sentence[128];
    int is_text = strlen(line) == length;
    if (is_text && is_refusal(line)) {
        snprintf(sentence, sizeof sentence, "picky_ask says: %s", line);
        stop(sentence);
    }
    const struct algorithm *by = is_text ? question_in(line, row, room, parts, digests) : NULL;
    if (!by)
        stop_at("isn't in the form of one", "");
    for (int i = 0; i < PARTS; i++) {
        digest_of(parts[i], digits);
        if (strcmp(digits, digests[i]))
            stop_at("has another SHA-256 than that of its ", NAMES[i]);
    }
    return by;
}

static void answer(char *line, size_t length)
{
    struct octets parts[PARTS];
    const char *why = NULL;
    char row[256];
    if (!is_new(line, length))
        return;
    const struct algorithm *by = read_question(line, length, row, sizeof row, parts);
    enum verdict found = verdict_on(by, parts, &why);
    if (found != NO_ROW)
        keep(row, found);
    if (found != ACCEPT)
        keep_lacking(found, by->name, why);
}

int main(void)
{
    char *line = NULL;
    size_t room = 0;
    ssize_t length;
    while ((length = getline(&line, &room, stdin)) > 0) {
        for (ssize_t i = 0; i < length; i++)
            if (line[i] & 0x80)
                stop("an octet of the questions is past ASCII");
        if (line[length - 1] != '\n')
            stop("the last question has no newline at its end");
        line[length - 1] = 0;
        answer(line, (size_t)length - 1);
    }
    free(line);
    if (ferror(stdin))
        end(2, "the questions can't be read");
    puts("picky-verdicts 2");
    for (size_t i = 0; i < rows_kept; i++)
        printf("%s %s\n", WORDS[rows[i].found], rows[i].text);
    for (size_t i = 0; i < lacking_kept; i++)
        fprintf(stderr, "verdict_table: %s\n", lacking[i]);
    return fflush(stdout) ? 2 : 0;
}
