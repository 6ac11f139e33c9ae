/* Calls of sec1.h in plain C, as bench/rivals measures them: the same checks in the same order, and
 * the same answers for every input. What is read is borrowed, by its place. Written from SEC1, RFC
 * 5280, 5480, 5915 and 5958, X.690 and sec1.h, apart from the crates and from dist/tests. */
#include <sec1.h>
#include <string.h>

/* The greatest length of a content, and of an identifier's content. */
enum { CONTENT_MAX = 0x0FFFFFFF, IDENTIFIER_MAX = SEC1_IDENTIFIER_CONTENT_MAX };

/* Returns what a call refuses with. */
#define TRY(call)                                                                                  \
    do {                                                                                           \
        uint32_t status = call;                                                                    \
        if (status)                                                                                \
            return status;                                                                         \
    } while (0)

/* Bytes in the input. No bytes may be at NULL, where a pointer is less and more by 0. */
struct bytes {
    const uint8_t *at, *end;
};

static struct bytes bytes_of(const uint8_t *bytes, size_t len)
{
    return (struct bytes){bytes, bytes + len};
}

static size_t len_of(struct bytes bytes)
{
    return (size_t)(bytes.end - bytes.at);
}

/* The place of a part in the input; a part at NULL is absent. */
static struct sec1_part place(const uint8_t *input, struct bytes part)
{
    if (!part.at)
        return (struct sec1_part){0, 0, 0};
    return (struct sec1_part){(size_t)(part.at - input), len_of(part), 1};
}

/* ---- elements (X.690 sections 8.1 and 10.1) */

/* Reads the length behind a tag byte, and the content. */
static inline uint32_t content(struct bytes *rest, struct bytes *content)
{
    const uint8_t *at = rest->at + 1;
    size_t len;
    if (at == rest->end)
        return SEC1_TRUNCATED;
    len = *at++;
    if (len >= 0x80) {
        size_t digits = len - 0x80;
        if (digits == 0 || digits > 4)
            return SEC1_LENGTH;
        if ((size_t)(rest->end - at) < digits)
            return SEC1_TRUNCATED;
        if (*at == 0)
            return SEC1_LENGTH;
        for (len = 0; digits > 0; digits--)
            len = len << 8 | *at++;
        if (len < 0x80 || len > CONTENT_MAX)
            return SEC1_LENGTH;
    }
    if ((size_t)(rest->end - at) < len)
        return SEC1_TRUNCATED;
    content->at = at;
    content->end = rest->at = at + len;
    return SEC1_OK;
}

/* Reads an element with this tag byte. */
static inline uint32_t element(struct bytes *rest, uint8_t tag, struct bytes *found)
{
    if (rest->at == rest->end)
        return SEC1_TRUNCATED;
    if (*rest->at != tag)
        return SEC1_TAG;
    return content(rest, found);
}

static int is_tag(uint8_t byte)
{
    return byte != 0 && (byte & 0x1F) != 0x1F;
}

/* Reads an element with any tag byte. */
static uint32_t any_element(struct bytes *rest, struct bytes *found)
{
    if (rest->at == rest->end)
        return SEC1_TRUNCATED;
    if (!is_tag(*rest->at))
        return SEC1_TAG;
    return content(rest, found);
}

static int begins_with(struct bytes rest, uint8_t tag)
{
    return rest.at < rest.end && *rest.at == tag;
}

static uint32_t end(struct bytes rest)
{
    return rest.at == rest.end ? SEC1_OK : SEC1_TRAILING_DATA;
}

/* Whether this is the content of a BIT STRING (X.690 sections 8.6 and 11.2.1). */
static int is_bits(struct bytes content)
{
    if (len_of(content) < 2)
        return len_of(content) == 1 && *content.at == 0;
    return *content.at < 8 && (content.end[-1] & ((1 << *content.at) - 1)) == 0;
}

/* Reads a BIT STRING. */
static uint32_t bits(struct bytes *rest, uint8_t tag, struct bytes *found)
{
    TRY(element(rest, tag, found));
    return is_bits(*found) ? SEC1_OK : SEC1_VALUE;
}

/* ---- identifiers of at most 39 bytes, with arcs below 2^32 (X.690 section 8.19) */

static int is_identifier(const uint8_t *content, size_t len)
{
    uint64_t number = 0;
    if (len == 0 || len > IDENTIFIER_MAX)
        return 0;
    for (size_t i = 0; i < len; i++) {
        if (number == 0 && content[i] == 0x80)
            return 0;
        number = number << 7 | (content[i] & 0x7F);
        if (number > UINT32_MAX)
            return 0;
        if (content[i] < 0x80)
            number = 0;
    }
    return content[len - 1] < 0x80;
}

/* Writes a number in decimal, and returns what is behind it. */
static char *put_number(char *text, uint32_t number)
{
    char digits[10];
    size_t count = 0;
    do
        digits[count++] = (char)('0' + number % 10);
    while ((number /= 10) != 0);
    while (count > 0)
        *text++ = digits[--count];
    return text;
}

uint32_t sec1_identifier_to_text(const uint8_t *content, size_t content_len, char *text,
                                 size_t text_len, size_t *len)
{
    char made[SEC1_IDENTIFIER_TEXT_MAX], *at = made;
    uint32_t number = 0;
    if (!is_identifier(content, content_len))
        return SEC1_VALUE;
    for (size_t i = 0; i < content_len; i++) {
        number = number << 7 | (content[i] & 0x7F);
        if (content[i] >= 0x80)
            continue;
        if (at == made) {
            uint32_t first = number < 40 ? 0 : number < 80 ? 1 : 2;
            *at++ = (char)('0' + first);
            number -= 40 * first;
        }
        *at++ = '.';
        at = put_number(at, number);
        number = 0;
    }
    *at++ = 0;
    *len = (size_t)(at - made);
    if (text_len < *len)
        return SEC1_BUFFER;
    memcpy(text, made, *len);
    return SEC1_OK;
}

/* Reads an arc of a text, and returns what is behind it, or NULL. */
static const char *arc(const char *at, const char *end, uint64_t *number)
{
    const char *begin = at;
    *number = 0;
    while (at < end && *at >= '0' && *at <= '9' && *number <= UINT32_MAX)
        *number = *number * 10 + (uint64_t)(*at++ - '0');
    if (at == begin || (*begin == '0' && at - begin > 1) || *number > UINT32_MAX)
        return NULL;
    return at;
}

uint32_t sec1_identifier_from_text(const char *text, size_t text_len, uint8_t *content,
                                   size_t content_len, size_t *len)
{
    const char *end = text + text_len;
    uint8_t made[IDENTIFIER_MAX];
    uint64_t first, number;
    size_t count = 0;
    const char *at = arc(text, end, &first);
    if (!at || first > 2 || at == end)
        return SEC1_VALUE;
    for (int is_second = 1; at < end; is_second = 0) {
        unsigned digits = 1;
        if (*at != '.' || !(at = arc(at + 1, end, &number)))
            return SEC1_VALUE;
        if (is_second) {
            if (first < 2 && number >= 40)
                return SEC1_VALUE;
            number += 40 * first;
        }
        while (number >> (7 * digits))
            digits++;
        if (number > UINT32_MAX || digits > sizeof made - count)
            return SEC1_VALUE;
        while (digits-- > 1)
            made[count++] = (uint8_t)(0x80 | number >> (7 * digits));
        made[count++] = (uint8_t)(number & 0x7F);
    }
    *len = count;
    if (content_len < count)
        return SEC1_BUFFER;
    memcpy(content, made, count);
    return SEC1_OK;
}

/* ---- private keys (RFC 5915 section 3) */

/* Reads the field [0]. */
static inline uint32_t parameters(struct bytes field, struct bytes *curve)
{
    TRY(element(&field, 0x06, curve));
    return is_identifier(curve->at, len_of(*curve)) ? end(field) : SEC1_VALUE;
}

/* Reads the field [1]. Unused bits are told behind what follows the BIT STRING. */
static inline uint32_t public_key_field(struct bytes field, struct bytes *key)
{
    TRY(bits(&field, 0x03, key));
    TRY(end(field));
    return *key->at++ == 0 ? SEC1_OK : SEC1_VALUE;
}

uint32_t sec1_key_read(const uint8_t *bytes, size_t bytes_len, struct sec1_key_parts *parts)
{
    struct bytes input = bytes_of(bytes, bytes_len), fields, field, version, private_key;
    struct bytes curve = {NULL, NULL}, public_key = {NULL, NULL};
    TRY(element(&input, 0x30, &fields));
    TRY(element(&fields, 0x02, &version));
    if (len_of(version) != 1 || *version.at != 1)
        return SEC1_VALUE;
    TRY(element(&fields, 0x04, &private_key));
    if (begins_with(fields, 0xA0)) {
        TRY(element(&fields, 0xA0, &field));
        TRY(parameters(field, &curve));
    }
    if (begins_with(fields, 0xA1)) {
        TRY(element(&fields, 0xA1, &field));
        TRY(public_key_field(field, &public_key));
    }
    TRY(end(fields));
    TRY(end(input));
    parts->private_key = place(bytes, private_key);
    parts->curve = place(bytes, curve);
    parts->public_key = place(bytes, public_key);
    return SEC1_OK;
}

static size_t header_len(size_t len)
{
    return len < 0x80 ? 2 : len < 0x100 ? 3 : len < 0x10000 ? 4 : len < 0x1000000 ? 5 : 6;
}

static size_t element_len(size_t len)
{
    return header_len(len) + len;
}

/* Writes a tag byte and a length, and returns what is behind them. */
static uint8_t *put_header(uint8_t *out, uint8_t tag, size_t len)
{
    *out++ = tag;
    if (len < 0x80) {
        *out++ = (uint8_t)len;
        return out;
    }
    unsigned digits = (unsigned)header_len(len) - 2;
    *out++ = (uint8_t)(0x80 + digits);
    while (digits-- > 0)
        *out++ = (uint8_t)(len >> (8 * digits));
    return out;
}

static uint8_t *put_bytes(uint8_t *out, const uint8_t *bytes, size_t len)
{
    memcpy(out, bytes, len);
    return out + len;
}

uint32_t sec1_key_write(const uint8_t *private_key, size_t private_key_len, const uint8_t *curve,
                        size_t curve_len, const uint8_t *public_key, size_t public_key_len,
                        size_t has_public_key, uint8_t *out, size_t out_len, size_t *len)
{
    size_t fields, bits_len = public_key_len + 1;
    if (curve_len && !is_identifier(curve, curve_len))
        return SEC1_VALUE;
    fields = 3 + element_len(private_key_len);
    if (curve_len)
        fields += element_len(element_len(curve_len));
    if (has_public_key)
        fields += element_len(element_len(bits_len));
    if (fields > CONTENT_MAX)
        return SEC1_OVERLENGTH;
    *len = element_len(fields);
    if (out_len < *len)
        return SEC1_BUFFER;
    out = put_header(out, 0x30, fields);
    out = put_header(out, 0x02, 1);
    *out++ = 1;
    out = put_header(out, 0x04, private_key_len);
    out = put_bytes(out, private_key, private_key_len);
    if (curve_len) {
        out = put_header(out, 0xA0, element_len(curve_len));
        out = put_header(out, 0x06, curve_len);
        out = put_bytes(out, curve, curve_len);
    }
    if (has_public_key) {
        out = put_header(out, 0xA1, element_len(bits_len));
        out = put_header(out, 0x03, bits_len);
        *out++ = 0;
        put_bytes(out, public_key, public_key_len);
    }
    return SEC1_OK;
}

/* ---- points (SEC1 section 2.3.3) */

/* The number of coordinates of a point with this tag, or -1 for no tag. */
static int coordinates(uint8_t tag)
{
    switch (tag) {
    case SEC1_POINT_IDENTITY: return 0;
    case SEC1_POINT_COMPRESSED_EVEN:
    case SEC1_POINT_COMPRESSED_ODD:
    case SEC1_POINT_COMPACT: return 1;
    case SEC1_POINT_UNCOMPRESSED:
    case SEC1_POINT_HYBRID_EVEN:
    case SEC1_POINT_HYBRID_ODD: return 2;
    default: return -1;
    }
}

static uint32_t check_point(const uint8_t *bytes, size_t len, size_t field_len)
{
    if (field_len == 0 || field_len > 66)
        return SEC1_FIELD_LENGTH;
    if (len == 0 || coordinates(*bytes) < 0
        || len != 1 + (size_t)coordinates(*bytes) * field_len)
        return SEC1_POINT_ENCODING;
    if (*bytes >= SEC1_POINT_HYBRID_EVEN && (*bytes ^ bytes[len - 1]) & 1)
        return SEC1_POINT_ENCODING;
    return SEC1_OK;
}

uint32_t sec1_point_read(const uint8_t *bytes, size_t bytes_len, size_t field_len,
                         struct sec1_point_parts *parts)
{
    static const struct sec1_part absent;
    TRY(check_point(bytes, bytes_len, field_len));
    parts->tag = *bytes;
    parts->x = bytes_len > 1 ? (struct sec1_part){1, field_len, 1} : absent;
    parts->y = bytes_len > 1 + field_len ? (struct sec1_part){1 + field_len, field_len, 1} : absent;
    return SEC1_OK;
}

uint32_t sec1_point_compress(const uint8_t *bytes, size_t bytes_len, size_t field_len,
                             uint8_t *out, size_t out_len, size_t *len)
{
    int has_y = bytes_len > 1 + field_len;
    TRY(check_point(bytes, bytes_len, field_len));
    *len = has_y ? 1 + field_len : bytes_len;
    if (out_len < *len)
        return SEC1_BUFFER;
    memcpy(out, bytes, *len);
    if (has_y)
        *out = (uint8_t)(SEC1_POINT_COMPRESSED_EVEN + (bytes[bytes_len - 1] & 1));
    return SEC1_OK;
}

uint32_t sec1_point_compare(const uint8_t *first, size_t first_len, const uint8_t *second,
                            size_t second_len, size_t field_len, int32_t *order)
{
    TRY(check_point(first, first_len, field_len));
    TRY(check_point(second, second_len, field_len));
    int found = *first != *second ? *first - *second : memcmp(first, second, first_len);
    *order = (found > 0) - (found < 0);
    return SEC1_OK;
}

/* ---- algorithms and public keys (RFC 5280 sections 4.1.1.2 and 4.1, RFC 5480 section 2) */

/* X.690 section 8.19.2, for any length. */
static int is_long_identifier(struct bytes content)
{
    int begins = 1;
    for (; content.at < content.end; content.at++) {
        if (begins && *content.at == 0x80)
            return 0;
        begins = *content.at < 0x80;
    }
    return begins;
}

static uint32_t identifier(struct bytes *rest, struct bytes *found)
{
    TRY(element(rest, 0x06, found));
    return len_of(*found) && is_long_identifier(*found) ? SEC1_OK : SEC1_VALUE;
}

/* The field length of a curve over a prime field of SEC 2, ANSI X9.62 and RFC 5639, or 0. */
static size_t curve_field(struct bytes curve)
{
    static const uint8_t secg[] = {0,  0,  0,  0,  0,  0,  14, 14, 20, 20, 32, 0,
                                   0,  0,  0,  0,  0,  0,  0,  0,  0,  0,  0,  0,
                                   0,  0,  0,  0,  16, 16, 20, 24, 28, 28, 48, 66};
    static const uint8_t ansi[] = {0, 24, 24, 24, 30, 30, 30, 32};
    static const uint8_t brainpool[] = {0, 20, 20, 24, 24, 28, 28, 32, 32, 40, 40, 48, 48, 64, 64};
    size_t len = len_of(curve), last = len ? curve.end[-1] : 0;
    if (len == 5 && memcmp(curve.at, "\x2B\x81\x04", 4) == 0)
        return last < sizeof secg ? secg[last] : 0;
    if (len == 8 && memcmp(curve.at, "\x2A\x86\x48\xCE\x3D\x03\x01", 7) == 0)
        return last < sizeof ansi ? ansi[last] : 0;
    if (len == 9 && memcmp(curve.at, "\x2B\x24\x03\x03\x02\x08\x01\x01", 8) == 0)
        return last < sizeof brainpool ? brainpool[last] : 0;
    return 0;
}

/* Reads an AlgorithmIdentifier, and stores the curve that one of id-ecPublicKey names, with its
 * field length; of another, and of no curve of the table, the field length is 0. */
static uint32_t algorithm(struct bytes *rest, struct bytes *curve, size_t *field)
{
    struct bytes fields, name;
    *field = 0;
    TRY(element(rest, 0x30, &fields));
    TRY(identifier(&fields, &name));
    if (fields.at == fields.end || !is_tag(*fields.at))
        return end(fields);
    int is_named = *fields.at == 0x06;
    TRY(any_element(&fields, curve));
    if (is_named && len_of(name) == 7 && memcmp(name.at, "\x2A\x86\x48\xCE\x3D\x02\x01", 7) == 0)
        *field = curve_field(*curve);
    return end(fields);
}

/* Reads a SubjectPublicKeyInfo. */
static uint32_t public_key_info(struct bytes *rest, struct bytes *curve, size_t *field,
                                struct bytes *key)
{
    struct bytes fields;
    TRY(element(rest, 0x30, &fields));
    TRY(algorithm(&fields, curve, field));
    TRY(bits(&fields, 0x03, key));
    return end(fields);
}

uint32_t sec1_public_key_read(const uint8_t *bytes, size_t bytes_len,
                              struct sec1_public_key_parts *parts)
{
    struct bytes input = bytes_of(bytes, bytes_len), curve, key;
    size_t field;
    TRY(public_key_info(&input, &curve, &field, &key));
    TRY(end(input));
    if (field == 0)
        return SEC1_CURVE;
    if (*key.at++ != 0 || check_point(key.at, len_of(key), field))
        return SEC1_POINT_ENCODING;
    parts->curve = place(bytes, curve);
    parts->public_key = place(bytes, key);
    return SEC1_OK;
}

/* ---- sets (X.690 section 11.6) */

/* Reads the elements of a SET OF, which ascend. That they don't is told behind all other faults. */
static uint32_t set_of(struct bytes rest, uint32_t (*read_one)(struct bytes *rest))
{
    struct bytes last = {rest.at, rest.at};
    int ascend = 1;
    while (rest.at < rest.end) {
        struct bytes next = {rest.at, rest.at};
        TRY(read_one(&rest));
        next.end = rest.at;
        size_t least = len_of(last) < len_of(next) ? len_of(last) : len_of(next);
        ascend &= memcmp(last.at, next.at, least) <= 0;
        last = next;
    }
    return ascend ? SEC1_OK : SEC1_VALUE;
}

/* ---- containers of private keys (RFC 5958 section 2) */

/* An attribute of a container, whose values aren't examined. */
static uint32_t key_attribute(struct bytes *rest)
{
    struct bytes fields, found;
    TRY(element(rest, 0x30, &fields));
    TRY(identifier(&fields, &found));
    TRY(element(&fields, 0x31, &found));
    return end(fields);
}

uint32_t sec1_private_key_info_read(const uint8_t *bytes, size_t bytes_len,
                                    struct sec1_private_key_info_parts *parts)
{
    struct bytes input = bytes_of(bytes, bytes_len), fields, version, curve, key, found;
    size_t field;
    TRY(element(&input, 0x30, &fields));
    TRY(element(&fields, 0x02, &version));
    if (len_of(version) != 1 || *version.at > 1)
        return SEC1_VALUE;
    TRY(algorithm(&fields, &curve, &field));
    TRY(element(&fields, 0x04, &key));
    if (begins_with(fields, 0xA0)) {
        TRY(element(&fields, 0xA0, &found));
        TRY(set_of(found, key_attribute));
    }
    if (*version.at == 1 && begins_with(fields, 0x81))
        TRY(bits(&fields, 0x81, &found));
    TRY(end(fields));
    TRY(end(input));
    if (field == 0)
        return SEC1_CURVE;
    parts->curve = place(bytes, curve);
    parts->key = place(bytes, key);
    return SEC1_OK;
}

/* ---- certificates (RFC 5280 section 4.1) */

/* What a certificate has, borrowed; a field at NULL is absent. */
struct certificate {
    struct bytes version, serial_number, signature, issuer, not_before, not_after, subject, info;
    struct bytes curve, public_key, issuer_unique_id, subject_unique_id, extensions;
    struct bytes algorithm, signature_value;
    size_t field;
};

/* An attribute of a name. */
static uint32_t name_attribute(struct bytes *rest)
{
    struct bytes fields, found;
    TRY(element(rest, 0x30, &fields));
    TRY(identifier(&fields, &found));
    TRY(any_element(&fields, &found));
    return end(fields);
}

static uint32_t name(struct bytes *rest, struct bytes *found)
{
    struct bytes sets, set;
    TRY(element(rest, 0x30, found));
    for (sets = *found; sets.at < sets.end;) {
        TRY(element(&sets, 0x31, &set));
        TRY(set_of(set, name_attribute));
    }
    return SEC1_OK;
}

/* X.690 section 8.3.2 */
static int is_integer(struct bytes content)
{
    if (len_of(content) < 2)
        return len_of(content) == 1;
    return !(content.at[0] == 0x00 && content.at[1] < 0x80)
           && !(content.at[0] == 0xFF && content.at[1] >= 0x80);
}

static int are_digits(const uint8_t *text, size_t len)
{
    for (size_t i = 0; i < len; i++)
        if (text[i] < '0' || text[i] > '9')
            return 0;
    return 1;
}

static unsigned two(const uint8_t *digits)
{
    return 10u * (digits[0] - '0') + (digits[1] - '0');
}

/* Whether the text MMDDhhmmss, all of digits, is a time of this year. */
static int is_time(unsigned year, const uint8_t *text)
{
    static const uint8_t days[] = {0, 31, 28, 31, 30, 31, 30, 31, 31, 30, 31, 30, 31};
    int is_leap = year % 4 == 0 && (year % 100 != 0 || year % 400 == 0);
    unsigned month = two(text), day = two(text + 2);
    return month >= 1 && month <= 12 && day >= 1
           && day <= days[month] + (unsigned)(is_leap && month == 2) && two(text + 4) < 24
           && two(text + 6) < 60 && two(text + 8) < 60;
}

/* RFC 5280 section 4.1.2.5.1: YYMMDDhhmmssZ */
static int is_utc_time(const uint8_t *text, size_t len)
{
    return len == 13 && are_digits(text, 12) && text[12] == 'Z'
           && is_time(two(text) + (two(text) < 50 ? 2000 : 1900), text + 2);
}

/* X.690 section 11.7: YYYYMMDDhhmmssZ, with a fraction that doesn't end in 0. */
static int is_generalized_time(const uint8_t *text, size_t len)
{
    if (len < 15 || !are_digits(text, 14) || text[len - 1] != 'Z')
        return 0;
    int has_fraction = len > 16 && text[14] == '.' && are_digits(text + 15, len - 16);
    return (len == 15 || (has_fraction && text[len - 2] != '0'))
           && is_time(100 * two(text) + two(text + 2), text + 4);
}

static uint32_t time(struct bytes *rest, struct bytes *found)
{
    int is_utc = begins_with(*rest, 0x17), is_right;
    TRY(element(rest, is_utc ? 0x17 : 0x18, found));
    is_right = is_utc ? is_utc_time(found->at, len_of(*found))
                      : is_generalized_time(found->at, len_of(*found));
    return is_right ? SEC1_OK : SEC1_VALUE;
}

static uint32_t validity(struct bytes *rest, struct certificate *found)
{
    struct bytes fields;
    TRY(element(rest, 0x30, &fields));
    TRY(time(&fields, &found->not_before));
    TRY(time(&fields, &found->not_after));
    return end(fields);
}

/* Reads the field [0]. Version 1 is the default, and isn't written (X.690 section 11.5). */
static uint32_t version_field(struct bytes *rest, struct bytes *version)
{
    struct bytes field;
    TRY(element(rest, 0xA0, &field));
    TRY(element(&field, 0x02, version));
    if (len_of(*version) != 1 || (*version->at != 1 && *version->at != 2))
        return SEC1_VALUE;
    return end(field);
}

/* Reads an Extension. FALSE is the default, and isn't written. */
static uint32_t extension(struct bytes *rest)
{
    struct bytes fields, found;
    TRY(element(rest, 0x30, &fields));
    TRY(identifier(&fields, &found));
    if (begins_with(fields, 0x01)) {
        TRY(element(&fields, 0x01, &found));
        if (len_of(found) != 1 || *found.at != 0xFF)
            return SEC1_VALUE;
    }
    TRY(element(&fields, 0x04, &found));
    return end(fields);
}

/* Reads the field [3]. */
static uint32_t extensions_field(struct bytes *rest, struct bytes *extensions)
{
    struct bytes field, row;
    TRY(element(rest, 0xA3, &field));
    TRY(element(&field, 0x30, extensions));
    for (row = *extensions; row.at < row.end;)
        TRY(extension(&row));
    return end(field);
}

/* Reads an AlgorithmIdentifier, whichever it is. */
static uint32_t any_algorithm(struct bytes *rest, struct bytes *found)
{
    struct bytes curve;
    size_t field;
    found->at = rest->at;
    TRY(algorithm(rest, &curve, &field));
    found->end = rest->at;
    return SEC1_OK;
}

/* Reads a TBSCertificate. */
static uint32_t tbs_certificate(struct bytes *rest, struct certificate *found)
{
    struct bytes fields;
    TRY(element(rest, 0x30, &fields));
    if (begins_with(fields, 0xA0))
        TRY(version_field(&fields, &found->version));
    TRY(element(&fields, 0x02, &found->serial_number));
    if (!is_integer(found->serial_number))
        return SEC1_VALUE;
    TRY(any_algorithm(&fields, &found->signature));
    TRY(name(&fields, &found->issuer));
    TRY(validity(&fields, found));
    TRY(name(&fields, &found->subject));
    found->info.at = fields.at;
    TRY(public_key_info(&fields, &found->curve, &found->field, &found->public_key));
    found->info.end = fields.at;
    if (begins_with(fields, 0x81))
        TRY(bits(&fields, 0x81, &found->issuer_unique_id));
    if (begins_with(fields, 0x82))
        TRY(bits(&fields, 0x82, &found->subject_unique_id));
    if (begins_with(fields, 0xA3))
        TRY(extensions_field(&fields, &found->extensions));
    return end(fields);
}

/* Reads a Certificate, all of whose fields are stored. */
uint32_t plain_certificate(const uint8_t *bytes, size_t len, struct certificate *found);
uint32_t plain_certificate(const uint8_t *bytes, size_t len, struct certificate *found)
{
    struct bytes input = bytes_of(bytes, len), fields;
    memset(found, 0, sizeof *found);
    TRY(element(&input, 0x30, &fields));
    TRY(tbs_certificate(&fields, found));
    TRY(any_algorithm(&fields, &found->algorithm));
    TRY(bits(&fields, 0x03, &found->signature_value));
    TRY(end(fields));
    return end(input);
}

uint32_t sec1_certificate_read_public_key(const uint8_t *bytes, size_t bytes_len,
                                          struct sec1_part *part)
{
    struct certificate found;
    TRY(plain_certificate(bytes, bytes_len, &found));
    *part = place(bytes, found.info);
    return SEC1_OK;
}
