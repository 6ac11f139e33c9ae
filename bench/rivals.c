/* Other libraries for C behind the names of three calls of sec1.h, one in each shared object: it
 * reads an EC private key, writes the key that it has read, and finds the public key in a
 * certificate. No places are stored. The library is one of BEARSSL, WOLFSSL, MBEDTLS, OPENSSL, and
 * TEMPLATES: those of OpenSSL, which know nothing of curves. */
#include <sec1.h>

static uint32_t status_of(int is_done)
{
    return is_done ? SEC1_OK : SEC1_VALUE;
}

#if defined OPENSSL
#define OPENSSL_SUPPRESS_DEPRECATED
#include <openssl/ec.h>
#include <openssl/x509.h>
static EC_KEY *given;

static int read_key(const uint8_t *bytes, size_t len)
{
    EC_KEY *read = d2i_ECPrivateKey(NULL, &bytes, (long)len);
    if (read) {
        EC_KEY_free(given);
        given = read;
    }
    return read != NULL;
}

static int write_key(uint8_t *out, size_t out_len)
{
    (void)out_len;
    return i2d_ECPrivateKey(given, &out) > 0;
}

static int read_certificate(const uint8_t *bytes, size_t len)
{
    X509 *read = d2i_X509(NULL, &bytes, (long)len);
    int found = read && X509_get0_pubkey_bitstr(read);
    X509_free(read);
    return found;
}

#elif defined TEMPLATES
#include <openssl/asn1t.h>

/* RFC 5915 section 3 */
typedef struct {
    int32_t version;
    ASN1_OCTET_STRING *private_key;
    ASN1_OBJECT *curve;
    ASN1_BIT_STRING *public_key;
} PRIVATE_KEY;

ASN1_SEQUENCE(PRIVATE_KEY) = {
    ASN1_EMBED(PRIVATE_KEY, version, INT32),
    ASN1_SIMPLE(PRIVATE_KEY, private_key, ASN1_OCTET_STRING),
    ASN1_EXP_OPT(PRIVATE_KEY, curve, ASN1_OBJECT, 0),
    ASN1_EXP_OPT(PRIVATE_KEY, public_key, ASN1_BIT_STRING, 1)
} static_ASN1_SEQUENCE_END(PRIVATE_KEY)

static ASN1_VALUE *given;

static int read_key(const uint8_t *bytes, size_t len)
{
    ASN1_VALUE *read = ASN1_item_d2i(NULL, &bytes, (long)len, ASN1_ITEM_rptr(PRIVATE_KEY));
    if (read) {
        ASN1_item_free(given, ASN1_ITEM_rptr(PRIVATE_KEY));
        given = read;
    }
    return read != NULL;
}

static int write_key(uint8_t *out, size_t out_len)
{
    (void)out_len;
    return ASN1_item_i2d(given, &out, ASN1_ITEM_rptr(PRIVATE_KEY)) > 0;
}

static int read_certificate(const uint8_t *bytes, size_t len)
{
    (void)bytes, (void)len;
    return 0;
}

#elif defined MBEDTLS
#include <mbedtls/pk.h>
#include <mbedtls/x509_crt.h>
static mbedtls_pk_context given;

static int read_key(const uint8_t *bytes, size_t len)
{
    mbedtls_pk_free(&given);
    mbedtls_pk_init(&given);
    return mbedtls_pk_parse_key(&given, bytes, len, NULL, 0) == 0;
}

static int write_key(uint8_t *out, size_t out_len)
{
    return mbedtls_pk_write_key_der(&given, out, out_len) > 0;
}

static int read_certificate(const uint8_t *bytes, size_t len)
{
    mbedtls_x509_crt read;
    mbedtls_x509_crt_init(&read);
    int found = mbedtls_x509_crt_parse_der(&read, bytes, len) == 0;
    mbedtls_x509_crt_free(&read);
    return found;
}

#elif defined WOLFSSL
#include <wolfssl/options.h>
#include <wolfssl/wolfcrypt/asn_public.h>
#include <wolfssl/wolfcrypt/asn.h>
#include <wolfssl/wolfcrypt/ecc.h>
static ecc_key given;

static int read_key(const uint8_t *bytes, size_t len)
{
    word32 at = 0;
    wc_ecc_free(&given);
    wc_ecc_init(&given);
    return wc_EccPrivateKeyDecode(bytes, &at, &given, (word32)len) == 0;
}

static int write_key(uint8_t *out, size_t out_len)
{
    return wc_EccKeyToDer(&given, out, (word32)out_len) > 0;
}

static int read_certificate(const uint8_t *bytes, size_t len)
{
    DecodedCert read;
    wc_InitDecodedCert(&read, bytes, (word32)len, NULL);
    int found = wc_ParseCert(&read, CERT_TYPE, NO_VERIFY, NULL) == 0;
    wc_FreeDecodedCert(&read);
    return found;
}

#elif defined BEARSSL
#include <bearssl.h>
static br_skey_decoder_context given;
static br_ec_public_key point = {.curve = BR_EC_secp256r1, .qlen = 65};

static int read_key(const uint8_t *bytes, size_t len)
{
    br_skey_decoder_init(&given);
    br_skey_decoder_push(&given, bytes, len);
    return br_skey_decoder_last_error(&given) == 0;
}

/* The public key, which isn't read, is given. */
static int write_key(uint8_t *out, size_t out_len)
{
    (void)out_len;
    return br_encode_ec_raw_der(out, br_skey_decoder_get_ec(&given), &point) > 0;
}

static int read_certificate(const uint8_t *bytes, size_t len)
{
    br_x509_decoder_context read;
    br_x509_decoder_init(&read, NULL, NULL);
    br_x509_decoder_push(&read, bytes, len);
    return br_x509_decoder_get_pkey(&read) != NULL;
}
#endif

uint32_t sec1_key_read(const uint8_t *bytes, size_t bytes_len, struct sec1_key_parts *parts)
{
    (void)parts;
    return status_of(read_key(bytes, bytes_len));
}

uint32_t sec1_key_write(const uint8_t *private_key, size_t private_key_len, const uint8_t *curve,
                        size_t curve_len, const uint8_t *public_key, size_t public_key_len,
                        size_t has_public_key, uint8_t *out, size_t out_len, size_t *len)
{
    (void)private_key, (void)private_key_len, (void)curve, (void)curve_len;
    (void)public_key, (void)public_key_len, (void)len;
#ifdef BEARSSL
    point.q = (uint8_t *)public_key;
#endif
    return status_of(has_public_key && write_key(out, out_len));
}

uint32_t sec1_certificate_read_public_key(const uint8_t *bytes, size_t bytes_len,
                                          struct sec1_part *part)
{
    (void)part;
    return status_of(read_certificate(bytes, bytes_len));
}
