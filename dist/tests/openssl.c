/* Reads 100,000 damaged keys with this library and with d2i_ECPrivateKey of OpenSSL. Each key that
 * only one of the two accepts must have one of the reasons below, which are found in its bytes by a
 * reader of this file's own, or by other calls of OpenSSL. Then it reads the containers, the public
 * keys and the certificates that OpenSSL writes on each curve that it has. */
#define OPENSSL_SUPPRESS_DEPRECATED
#include <openssl/crypto.h>
#include <openssl/ec.h>
#include <openssl/err.h>
#include <openssl/evp.h>
#include <openssl/objects.h>
#include <openssl/x509.h>
#include "draw.h"
#include <sec1.h>
#include <stdio.h>
#include <stdlib.h>
#include <string.h>

enum { MOST = 1024 };

struct bytes {
    size_t len;
    uint8_t data[MOST];
};

/* ---- the reasons */

enum reason {
    NONE,
    /* accepted by OpenSSL alone */
    BYTES_BEHIND_KEY,
    OTHER_LENGTH,
    OTHER_VERSION,
    UNUSED_BITS,
    OTHER_PARAMETERS,
    OTHER_FORM,
    /* accepted by this library alone */
    NO_CURVE,
    UNKNOWN_CURVE,
    NO_POINT,
    REASONS
};

static const char *const reason_texts[REASONS] = {
    "no reason",
    "OpenSSL alone: bytes follow the key",
    "OpenSSL alone: a length isn't in its one form",
    "OpenSSL alone: the version isn't 1",
    "OpenSSL alone: the public key has unused bits",
    "OpenSSL alone: the curve isn't given by name",
    "OpenSSL alone: another form of BER",
    "sec1 alone: no curve is named",
    "sec1 alone: OpenSSL doesn't know the curve",
    "sec1 alone: the public key isn't a point on the curve",
};

/* ---- a reader of BER that notes what isn't DER, or isn't a key with a named curve */

struct element {
    uint8_t tag;
    const uint8_t *content;
    size_t len;
    size_t whole; /* header, content and the end of an indefinite form */
    int other_length, indefinite;
};

/* Finds the element that the bytes begin with, also where its length has another form than that of
 * DER. */
static int element_at(const uint8_t *bytes, size_t len, struct element *e, int depth)
{
    memset(e, 0, sizeof *e);
    e->content = bytes;
    if (len < 2 || depth > 8)
        return 0;
    e->tag = bytes[0];
    size_t at = 2, count = bytes[1] & 0x7F;
    if (bytes[1] < 0x80) {
        e->len = bytes[1];
    } else if (bytes[1] == 0x80) {
        e->indefinite = e->other_length = 1;
        while (at + 2 <= len && (bytes[at] || bytes[at + 1])) {
            struct element inside;
            if (!element_at(bytes + at, len - at, &inside, depth + 1))
                return 0;
            at += inside.whole;
        }
        if (at + 2 > len)
            return 0;
        e->content = bytes + 2;
        e->len = at - 2;
        e->whole = at + 2;
        return 1;
    } else {
        if (count > len - 2)
            return 0;
        size_t n = 0;
        for (size_t i = 0; i < count; i++) {
            if (n >> 40)
                return 0;
            n = n << 8 | bytes[2 + i];
        }
        e->other_length = n < 128 || bytes[2] == 0;
        e->len = n;
        at += count;
    }
    if (e->len > len - at)
        return 0;
    e->content = bytes + at;
    e->whole = at + e->len;
    return 1;
}

/* The next element of a row; none where the row has ended. */
static int next(const uint8_t **row, size_t *left, struct element *e)
{
    if (!element_at(*row, *left, e, 0))
        return 0;
    *row += e->whole;
    *left -= e->whole;
    return 1;
}

struct notes {
    int is[REASONS];
};

static void note(struct notes *notes, enum reason reason, int holds)
{
    if (holds)
        notes->is[reason] = 1;
}

static void note_field(struct notes *notes, const struct element *field, struct element *inside)
{
    note(notes, OTHER_LENGTH, field->other_length);
    if (!element_at(field->content, field->len, inside, 0))
        return;
    note(notes, OTHER_LENGTH, inside->other_length);
}

/* What keeps these bytes from being the DER encoding of a key whose curve is named. */
static struct notes notes_of(const uint8_t *bytes, size_t len)
{
    struct notes notes = {{0}};
    struct element key, e, inside;
    if (!element_at(bytes, len, &key, 0))
        return notes;
    note(&notes, BYTES_BEHIND_KEY, key.whole != len);
    note(&notes, OTHER_LENGTH, key.other_length);
    const uint8_t *row = key.content;
    size_t left = key.len;
    if (!next(&row, &left, &e))
        return notes;
    note(&notes, OTHER_LENGTH, e.other_length);
    note(&notes, OTHER_VERSION, e.len != 1 || e.content[0] != 1);
    if (!next(&row, &left, &e))
        return notes;
    note(&notes, OTHER_LENGTH, e.other_length);
    note(&notes, OTHER_FORM, e.tag != 0x04);
    int more = next(&row, &left, &e);
    if (more && e.tag == 0xA0) {
        note_field(&notes, &e, &inside);
        note(&notes, OTHER_PARAMETERS, inside.tag != 0x06);
        more = next(&row, &left, &e);
    }
    if (more && e.tag == 0xA1) {
        note_field(&notes, &e, &inside);
        note(&notes, OTHER_FORM, inside.tag != 0x03);
        note(&notes, UNUSED_BITS, inside.tag == 0x03 && inside.len > 0 && inside.content[0] != 0);
    }
    return notes;
}

/* ---- what OpenSSL says of the parts of a key that it refuses */

static enum reason refused_part(const uint8_t *key, const struct sec1_key_parts *parts)
{
    if (!parts->curve.present)
        return NO_CURVE;
    char name[SEC1_IDENTIFIER_TEXT_MAX];
    size_t name_len;
    if (sec1_identifier_to_text(key + parts->curve.offset, parts->curve.len, name, sizeof name,
                                &name_len))
        return NONE;
    ASN1_OBJECT *object = OBJ_txt2obj(name, 1);
    EC_GROUP *group = object ? EC_GROUP_new_by_curve_name(OBJ_obj2nid(object)) : NULL;
    ASN1_OBJECT_free(object);
    if (!group)
        return UNKNOWN_CURVE;
    enum reason reason = NONE;
    if (parts->public_key.present) {
        EC_POINT *point = EC_POINT_new(group);
        if (!EC_POINT_oct2point(group, point, key + parts->public_key.offset,
                                parts->public_key.len, NULL))
            reason = NO_POINT;
        EC_POINT_free(point);
    }
    EC_GROUP_free(group);
    return reason;
}

/* ---- comparing */

static unsigned long counts[REASONS], both, neither, unexplained;
static struct bytes shortest[REASONS];

static void print_hex(const uint8_t *bytes, size_t len)
{
    for (size_t i = 0; i < len; i++)
        printf("%02X", bytes[i]);
    printf("\n");
}

static void explained(enum reason reason, struct bytes key)
{
    counts[reason]++;
    if (!shortest[reason].len || key.len < shortest[reason].len)
        shortest[reason] = key;
}

static int openssl_reads(struct bytes key)
{
    const unsigned char *at = key.data;
    EC_KEY *read = d2i_ECPrivateKey(NULL, &at, (long)key.len);
    int accepts = read != NULL;
    EC_KEY_free(read);
    ERR_clear_error();
    return accepts;
}

/* Reads a key both ways, and returns 1 if a difference has a reason. */
static int compare(struct bytes key)
{
    /* so that the sanitizer sees each byte beyond */
    uint8_t *exact = malloc(key.len ? key.len : 1);
    memcpy(exact, key.data, key.len);
    struct sec1_key_parts parts;
    uint32_t status = sec1_key_read(exact, key.len, &parts);
    int openssl = openssl_reads(key), found = 1;
    struct notes notes = notes_of(key.data, key.len);
    if (openssl && status == SEC1_OK) {
        both++;
        for (int reason = BYTES_BEHIND_KEY; reason <= OTHER_FORM; reason++)
            found &= !notes.is[reason];
    } else if (!openssl && status != SEC1_OK) {
        neither++;
    } else if (openssl) {
        found = 0;
        for (int reason = BYTES_BEHIND_KEY; reason <= OTHER_FORM; reason++) {
            if (notes.is[reason]) {
                explained(reason, key);
                found = 1;
            }
        }
    } else {
        enum reason reason = refused_part(exact, &parts);
        found = reason != NONE;
        if (found)
            explained(reason, key);
        ERR_clear_error();
    }
    free(exact);
    if (!found && ++unexplained <= 10) {
        printf("no reason (sec1 %u, OpenSSL %s): ", (unsigned)status,
               openssl ? "accepts" : "refuses");
        print_hex(key.data, key.len);
    }
    return found;
}

/* ---- keys made by OpenSSL, and their damage */

static struct bytes keys[64];
static int key_count;

static void add_key(EC_KEY *key, unsigned flags, point_conversion_form_t form, int curve_form)
{
    EC_KEY_set_enc_flags(key, flags);
    EC_KEY_set_conv_form(key, form);
    EC_KEY_set_asn1_flag(key, curve_form);
    unsigned char *der = NULL;
    int len = i2d_ECPrivateKey(key, &der);
    if (len <= 0 || len > MOST - 16) {
        fprintf(stderr, "OpenSSL made no key\n");
        exit(2);
    }
    keys[key_count].len = (size_t)len;
    memcpy(keys[key_count].data, der, (size_t)len);
    key_count++;
    OPENSSL_free(der);
}

/* Adds keys on a curve whose private key has these digits. */
static void add_keys(int curve, const char *digits)
{
    EC_KEY *key = EC_KEY_new_by_curve_name(curve);
    const EC_GROUP *group = EC_KEY_get0_group(key);
    BIGNUM *number = NULL;
    EC_POINT *point = EC_POINT_new(group);
    if (!BN_hex2bn(&number, digits) || !EC_POINT_mul(group, point, number, NULL, NULL, NULL)
        || !EC_KEY_set_private_key(key, number) || !EC_KEY_set_public_key(key, point)) {
        fprintf(stderr, "OpenSSL made no key\n");
        exit(2);
    }
    add_key(key, 0, POINT_CONVERSION_UNCOMPRESSED, OPENSSL_EC_NAMED_CURVE);
    add_key(key, 0, POINT_CONVERSION_COMPRESSED, OPENSSL_EC_NAMED_CURVE);
    add_key(key, 0, POINT_CONVERSION_HYBRID, OPENSSL_EC_NAMED_CURVE);
    add_key(key, EC_PKEY_NO_PUBKEY, POINT_CONVERSION_UNCOMPRESSED, OPENSSL_EC_NAMED_CURVE);
    add_key(key, EC_PKEY_NO_PARAMETERS, POINT_CONVERSION_UNCOMPRESSED, OPENSSL_EC_NAMED_CURVE);
    if (curve == NID_X9_62_prime256v1)
        add_key(key, 0, POINT_CONVERSION_UNCOMPRESSED, OPENSSL_EC_EXPLICIT_CURVE);
    EC_POINT_free(point);
    BN_free(number);
    EC_KEY_free(key);
}

static void insert(struct bytes *key, size_t at, uint8_t byte)
{
    if (key->len == MOST || at > key->len)
        return;
    memmove(key->data + at + 1, key->data + at, key->len - at);
    key->data[at] = byte;
    key->len++;
}

/* Encodes the length of the whole key in one byte more than is needed, or as the indefinite form. */
static void lengthen(struct bytes *key)
{
    if (key->len < 3)
        return;
    if (key->data[1] < 0x80 && draw(2)) {
        insert(key, 1, 0x81);
    } else if (key->data[1] < 0x80) {
        key->data[1] = 0x80;
        insert(key, key->len, 0);
        insert(key, key->len, 0);
    } else if (key->data[1] == 0x81) {
        key->data[1] = 0x82;
        insert(key, 2, 0);
    }
}

/* Sets the count of unused bits of the public key, and clears these bits. */
static void leave_bits(struct bytes *key)
{
    struct sec1_key_parts parts;
    if (sec1_key_read(key->data, key->len, &parts) || !parts.public_key.present
        || !parts.public_key.len)
        return;
    uint8_t count = (uint8_t)(1 + draw(3));
    key->data[parts.public_key.offset - 1] = count;
    key->data[parts.public_key.offset + parts.public_key.len - 1] &= (uint8_t)(0xFF << count);
}

static void replace_private_key(struct bytes *key)
{
    struct sec1_key_parts parts;
    if (sec1_key_read(key->data, key->len, &parts) == SEC1_OK)
        memset(key->data + parts.private_key.offset, draw(2) ? 0xFF : 0x00, parts.private_key.len);
}

static struct bytes damaged(struct bytes key)
{
    for (uint32_t times = 1 + draw(3); times > 0 && key.len > 0; times--) {
        size_t at = draw((uint32_t)(draw(2) || key.len < 16 ? key.len : 16));
        switch (draw(10)) {
        case 0: key.data[at] ^= (uint8_t)(1 << draw(8)); break;
        case 1: key.data[at] = (uint8_t)draw(256); break;
        case 2: insert(&key, at, (uint8_t)draw(256)); break;
        case 3:
            memmove(key.data + at, key.data + at + 1, key.len - at - 1);
            key.len--;
            break;
        case 4: key.len = at; break;
        case 5: insert(&key, key.len, (uint8_t)draw(256)); break;
        case 6: key.data[at] += draw(2) ? 1 : 255; break;
        case 7: lengthen(&key); break;
        case 8: leave_bits(&key); break;
        default: replace_private_key(&key); break;
        }
    }
    return key;
}

/* ---- one input for each reason */

#define SCALAR "69624171561A63340DE0E7D869F2A05492558E1A04868B6A9F854A866788188D"
#define P_256 "A00A06082A8648CE3D030107"

/* the parameters of P-256, as OpenSSL writes them */
#define EXPLICIT \
    "A081FA3081F7020101302C06072A8648CE3D0101022100FFFFFFFF00000001000000000000000000000000" \
    "FFFFFFFFFFFFFFFFFFFFFFFF305B0420FFFFFFFF00000001000000000000000000000000FFFFFFFFFFFFFFFF" \
    "FFFFFFFC04205AC635D8AA3A93E7B3EBBD55769886BC651D06B0CC53B0F63BCE3C3E27D2604B031500C49D36" \
    "0886E704936A6678E1139D26B7819F7E900441046B17D1F2E12C4247F8BCE6E563A440F277037D812DEB33A0" \
    "F4A13945D898C2964FE342E2FE1A7F9B8EE7EB4A7C0F9E162BCE33576B315ECECBB6406837BF51F5022100FF" \
    "FFFFFF00000000FFFFFFFFFFFFFFFFBCE6FAADA7179E84F3B9CAC2FC632551020101"

/* a compressed point on P-224 whose x has two zero bits at its end */
#define EVEN_POINT "0202F6985E7E7AD78ECF8CACBA2F83C2193FF557E52B258039E5965F6694"

static const struct example {
    enum reason reason;
    uint32_t status;
    int openssl;
    const char *key;
} examples[] = {
    {NONE, SEC1_OK, 1, "3031" "020101" "0420" SCALAR P_256},
    {BYTES_BEHIND_KEY, SEC1_TRAILING_DATA, 1, "3031" "020101" "0420" SCALAR P_256 "00"},
    {OTHER_LENGTH, SEC1_LENGTH, 1, "308131" "020101" "0420" SCALAR P_256},
    {OTHER_LENGTH, SEC1_LENGTH, 1, "3080" "020101" "0420" SCALAR P_256 "0000"},
    {OTHER_VERSION, SEC1_VALUE, 1, "3031" "020102" "0420" SCALAR P_256},
    {UNUSED_BITS, SEC1_VALUE, 1,
     "3050" "020101" "0420" SCALAR "A00706052B81040021" "A120031E02" EVEN_POINT},
    {OTHER_PARAMETERS, SEC1_TAG, 1, "30820122" "020101" "0420" SCALAR EXPLICIT},
    {OTHER_FORM, SEC1_TAG, 1, "3033" "020101" "2422" "0420" SCALAR P_256},
    {NO_CURVE, SEC1_OK, 0, "3025" "020101" "0420" SCALAR},
    {UNKNOWN_CURVE, SEC1_OK, 0, "302B" "020101" "0420" SCALAR "A00406022A03"},
    {NO_POINT, SEC1_OK, 0, "3037" "020101" "0420" SCALAR P_256 "A10403020005"},
};

static struct bytes unhex(const char *text)
{
    struct bytes b = {0};
    for (; text[0] && text[1]; text += 2) {
        char pair[] = {text[0], text[1], 0};
        b.data[b.len++] = (uint8_t)strtoul(pair, NULL, 16);
    }
    return b;
}

static int examples_hold(void)
{
    int hold = 1;
    for (size_t i = 0; i < sizeof examples / sizeof *examples; i++) {
        struct example x = examples[i];
        struct bytes key = unhex(x.key);
        struct sec1_key_parts parts;
        unsigned long before = counts[x.reason];
        uint32_t status = sec1_key_read(key.data, key.len, &parts);
        int openssl = openssl_reads(key);
        int holds = status == x.status && openssl == x.openssl && compare(key)
                    && (x.reason == NONE || counts[x.reason] == before + 1);
        if (!holds)
            printf("FAILED: sec1 %u, OpenSSL %d, %s: %s\n", (unsigned)status, openssl,
                   reason_texts[x.reason], x.key);
        hold &= holds;
    }
    return hold;
}

/* ---- containers, public keys and certificates */

static unsigned long wrong_records;

static void expect(int holds, const char *what, const char *curve)
{
    if (!holds && ++wrong_records <= 10)
        printf("FAILED: %s of a key on %s\n", what, curve);
}

#define EXPECT(condition, curve) expect((condition) ? 1 : 0, #condition, curve)

/* What an i2d function of OpenSSL writes of a value. */
#define DER_OF(i2d, value) (der_len = (der = NULL, i2d(value, &der)), take(der, der_len))

static struct bytes take(unsigned char *der, int len)
{
    struct bytes taken = {0};
    if (len <= 0 || len > MOST) {
        fprintf(stderr, "OpenSSL wrote nothing\n");
        exit(2);
    }
    taken.len = (size_t)len;
    memcpy(taken.data, der, taken.len);
    OPENSSL_free(der);
    return taken;
}

static int is_at(struct bytes whole, struct sec1_part part, const unsigned char *bytes, size_t len)
{
    return part.present == 1 && part.len == len && part.offset + len <= whole.len
           && memcmp(whole.data + part.offset, bytes, len) == 0;
}

/* Reads a public key, and compares its parts with those that OpenSSL gives. */
static uint32_t read_info(struct bytes info, X509_PUBKEY *wanted, const ASN1_OBJECT *curve,
                          const char *name)
{
    struct sec1_public_key_parts parts;
    const unsigned char *point;
    int point_len;
    uint32_t status = sec1_public_key_read(info.data, info.len, &parts);
    X509_PUBKEY_get0_param(NULL, &point, &point_len, NULL, wanted);
    if (status == SEC1_OK) {
        EXPECT(is_at(info, parts.curve, OBJ_get0_data(curve), OBJ_length(curve)), name);
        EXPECT(is_at(info, parts.public_key, point, (size_t)point_len), name);
    }
    return status;
}

/* What the library writes of a key's parts is what OpenSSL writes of the key. */
static void write_records(struct bytes whole, struct bytes info, const char *name)
{
    static unsigned char out[MOST];
    struct sec1_private_key_info_parts container;
    struct sec1_key_parts key;
    struct sec1_public_key_parts parts;
    const unsigned char *inside;
    size_t len = 0;
    EXPECT(sec1_private_key_info_read(whole.data, whole.len, &container) == SEC1_OK, name);
    inside = whole.data + container.key.offset;
    EXPECT(sec1_key_read(inside, container.key.len, &key) == SEC1_OK, name);
    EXPECT(sec1_private_key_info_write(
               inside + key.private_key.offset, key.private_key.len,
               whole.data + container.curve.offset, container.curve.len,
               inside + key.public_key.offset, key.public_key.len, key.public_key.present, out,
               sizeof out, &len) == SEC1_OK
           && len == whole.len && memcmp(out, whole.data, len) == 0, name);
    EXPECT(sec1_public_key_read(info.data, info.len, &parts) == SEC1_OK, name);
    EXPECT(sec1_public_key_write(info.data + parts.curve.offset, parts.curve.len,
                                 info.data + parts.public_key.offset, parts.public_key.len, out,
                                 sizeof out, &len) == SEC1_OK
           && len == info.len && memcmp(out, info.data, len) == 0, name);
}

/* Signs each certificate, also where OpenSSL signs nothing with the key itself. */
static EVP_PKEY *issuer;

static X509 *certificate_of(EVP_PKEY *key, int curve)
{
    X509 *certificate = X509_new();
    X509_set_version(certificate, curve % 2 ? 2 : 0);
    ASN1_INTEGER_set(X509_get_serialNumber(certificate), curve);
    X509_gmtime_adj(X509_getm_notBefore(certificate), 0);
    X509_gmtime_adj(X509_getm_notAfter(certificate), (long)curve * 100 * 86400);
    X509_NAME_add_entry_by_txt(X509_get_subject_name(certificate), "CN", MBSTRING_ASC,
                               (const unsigned char *)OBJ_nid2sn(curve), -1, -1, 0);
    X509_set_issuer_name(certificate, X509_get_subject_name(certificate));
    X509_set_pubkey(certificate, key);
    if (!X509_sign(certificate, issuer, EVP_sha256())) {
        fprintf(stderr, "OpenSSL made no certificate\n");
        exit(2);
    }
    return certificate;
}

static void compare_certificate(EVP_PKEY *key, int curve, struct bytes info)
{
    const char *name = OBJ_nid2sn(curve);
    unsigned char *der;
    int der_len;
    X509 *certificate = certificate_of(key, curve);
    struct bytes whole = DER_OF(i2d_X509, certificate);
    struct sec1_part part;
    EXPECT(sec1_certificate_read_public_key(whole.data, whole.len, &part) == SEC1_OK
           && is_at(whole, part, info.data, info.len), name);
    X509_free(certificate);
}

/* Reads what OpenSSL writes of a key on this curve. Returns whether the table has the curve. */
static int compare_records(int curve)
{
    const char *name = OBJ_nid2sn(curve);
    unsigned char *der;
    int der_len, private_len;
    const unsigned char *private_key;
    EC_KEY *ec_key = EC_KEY_new_by_curve_name(curve);
    EVP_PKEY *key = EVP_PKEY_new();
    if (!EC_KEY_generate_key(ec_key) || !EVP_PKEY_assign_EC_KEY(key, ec_key)) {
        fprintf(stderr, "OpenSSL made no key\n");
        exit(2);
    }
    PKCS8_PRIV_KEY_INFO *container = EVP_PKEY2PKCS8(key);
    struct bytes whole = DER_OF(i2d_PKCS8_PRIV_KEY_INFO, container);
    struct sec1_private_key_info_parts parts;
    struct sec1_key_parts key_parts;
    uint32_t status = sec1_private_key_info_read(whole.data, whole.len, &parts);
    PKCS8_pkey_get0(NULL, &private_key, &private_len, NULL, container);
    if (status == SEC1_OK) {
        const ASN1_OBJECT *object = OBJ_nid2obj(curve);
        EXPECT(is_at(whole, parts.curve, OBJ_get0_data(object), OBJ_length(object)), name);
        EXPECT(is_at(whole, parts.key, private_key, (size_t)private_len), name);
        EXPECT(sec1_key_read(whole.data + parts.key.offset, parts.key.len, &key_parts) == SEC1_OK,
               name);
    }
    X509_PUBKEY *public_key = NULL;
    X509_PUBKEY_set(&public_key, key);
    struct bytes info = DER_OF(i2d_X509_PUBKEY, public_key);
    EXPECT(read_info(info, public_key, OBJ_nid2obj(curve), name) == status, name);
    EXPECT(status == SEC1_OK || status == SEC1_CURVE, name);
    if (status == SEC1_OK)
        write_records(whole, info, name);
    compare_certificate(key, curve, info);
    X509_PUBKEY_free(public_key);
    PKCS8_PRIV_KEY_INFO_free(container);
    EVP_PKEY_free(key);
    return status == SEC1_OK;
}

/* Whether the records of each curve that OpenSSL has were read. Those over prime fields of SEC 2,
 * ANSI X9.62 and RFC 5639 are 34. */
static int records_hold(void)
{
    size_t count = EC_get_builtin_curves(NULL, 0);
    EC_builtin_curve *curves = calloc(count, sizeof *curves);
    int accepted = 0;
    issuer = EVP_EC_gen("P-256");
    EC_get_builtin_curves(curves, count);
    for (size_t i = 0; i < count; i++)
        accepted += compare_records(curves[i].nid);
    printf("records of %zu curves, of which the table has %d\n", count, accepted);
    free(curves);
    EVP_PKEY_free(issuer);
    return accepted == 34 && wrong_records == 0;
}

/* ---- signatures */

static struct bytes bytes_of(const BIGNUM *number)
{
    struct bytes b = {0};
    b.len = (size_t)BN_bn2bin(number, b.data);
    return b;
}

/* Whether OpenSSL writes these bytes of the signature that it read from them. */
static int is_written(const ECDSA_SIG *signature, struct bytes input)
{
    unsigned char *der;
    int der_len;
    struct bytes again = DER_OF(i2d_ECDSA_SIG, signature);
    return again.len == input.len && memcmp(again.data, input.data, input.len) == 0;
}

/* Whether both read these bytes to their end, as the same numbers, or neither does, or OpenSSL
 * alone does, by a length that isn't in its one form. The library writes of numbers that OpenSSL
 * read what was read. */
static int same_signature(struct bytes input, unsigned long *read_by_both, unsigned long *by_length)
{
    struct sec1_signature_parts parts;
    unsigned char out[MOST];
    const unsigned char *at = input.data;
    size_t len;
    uint32_t status = sec1_signature_read(input.data, input.len, &parts);
    ECDSA_SIG *signature = d2i_ECDSA_SIG(NULL, &at, (long)input.len);
    int read = signature && at == input.data + input.len, same = read == (status == SEC1_OK);
    if (read && status == SEC1_LENGTH && !is_written(signature, input)) {
        ++*by_length;
        same = 1;
    } else if (read && same) {
        struct bytes r = bytes_of(ECDSA_SIG_get0_r(signature)),
                     s = bytes_of(ECDSA_SIG_get0_s(signature));
        size_t r_zeros = parts.r.len - r.len, s_zeros = parts.s.len - s.len;
        ++*read_by_both;
        same = r_zeros <= 1 && s_zeros <= 1
               && memcmp(input.data + parts.r.offset + r_zeros, r.data, r.len) == 0
               && memcmp(input.data + parts.s.offset + s_zeros, s.data, s.len) == 0
               && sec1_signature_write(r.data, r.len, s.data, s.len, out, sizeof out, &len) == 0
               && len == input.len && memcmp(out, input.data, len) == 0;
    }
    ECDSA_SIG_free(signature);
    if (!same) {
        printf("FAILED: sec1 %u, OpenSSL %d: ", (unsigned)status, read);
        print_hex(input.data, input.len);
    }
    return same;
}

/* Signatures by OpenSSL of keys of several sizes, and as many of them damaged. */
static int signatures_hold(int count)
{
    static const int curves[] = {NID_X9_62_prime256v1, NID_secp224r1, NID_secp384r1, NID_secp521r1};
    unsigned long both_read = 0, by_length = 0;
    int wrong = 0;
    for (size_t i = 0; i < sizeof curves / sizeof *curves; i++) {
        EC_KEY *key = EC_KEY_new_by_curve_name(curves[i]);
        EC_KEY_generate_key(key);
        for (int made = 0; made < 100; made++) {
            unsigned char digest[32], der[MOST];
            unsigned der_len = 0;
            struct bytes signature = {0};
            for (size_t j = 0; j < sizeof digest; j++)
                digest[j] = (unsigned char)draw(256);
            ECDSA_sign(0, digest, sizeof digest, der, &der_len, key);
            signature.len = der_len;
            memcpy(signature.data, der, der_len);
            wrong += !same_signature(signature, &both_read, &by_length);
            for (int j = 0; j < count / 400; j++)
                wrong += !same_signature(damaged(signature), &both_read, &by_length);
        }
        EC_KEY_free(key);
    }
    printf("with %d damaged signatures: %lu read by both, %lu by OpenSSL alone, since a length isn't"
           " in its one form\n", count, both_read, by_length);
    return wrong == 0 && both_read > 400 && by_length > 0;
}

int main(void)
{
    enum { DAMAGED = 100000 };
    unsigned passed = 0, failed = 0;
    printf("%s\n", OpenSSL_version(OPENSSL_VERSION));
    add_keys(NID_X9_62_prime256v1,
             "ADF80C72A37F5B3882BD46A1D40358A5F94E211288A3ADBB9F93DE807D4837D1");
    add_keys(NID_secp224r1, "5B0E0A435D2108521301CA7F4173B5D8321FB52BB6F68E9B594D695B");
    add_keys(NID_secp384r1, "139705C449D5AADB6D3B960FA81479DBC90A920382E293B94F62FDD45ABD2826"
                            "08D7AD5D880122F0");
    add_keys(NID_secp521r1, "2A2E1F3791720ED3C9A2E8DA21BDE43439A9359E32D02E0E518EB3854EC2AA6D"
                            "6101D3D6585A4542F1");
    add_keys(NID_secp256k1, "FA26A90820C4248B0F41DADC3BAC2A892E020E58AF0F21642A0207FAF519F1B8");

    examples_hold() ? passed++ : failed++;
    records_hold() ? passed++ : failed++;
    signatures_hold(DAMAGED) ? passed++ : failed++;
    memset(counts, 0, sizeof counts);
    both = neither = 0;
    for (int i = 0; i < key_count; i++)
        compare(keys[i]);
    printf("%d keys of OpenSSL: %lu accepted by both, %lu by neither\n", key_count, both, neither);
    for (int i = 0; i < DAMAGED; i++)
        compare(damaged(keys[draw((uint32_t)key_count)]));
    printf("with %d damaged keys: %lu accepted by both, %lu by neither\n", DAMAGED, both, neither);
    for (int reason = BYTES_BEHIND_KEY; reason < REASONS; reason++) {
        if (counts[reason]) {
            printf("%s: %lu, as ", reason_texts[reason], counts[reason]);
            print_hex(shortest[reason].data, shortest[reason].len);
        }
    }
    unexplained == 0 ? passed++ : failed++;
    printf("%lu differences without a reason\n", unexplained);
    printf("%u passed, %u failed\n", passed, failed);
    return failed != 0;
}
