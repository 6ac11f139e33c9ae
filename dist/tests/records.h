/* A second reader of public keys with their algorithms, containers of private keys and
 * certificates, written from X.690, RFC 5280, RFC 5480 and RFC 5958 alone and apart from the
 * crates: which status a call has to return, and what it has to store. */
#include "reader.h"

typedef int is_content(const uint8_t *content, size_t len);
typedef uint32_t read_one(struct rest *rest);

/* Reads an element with this tag, and stores the row of what is inside it. */
static uint32_t enter(struct rest *rest, int tag, struct rest *inside)
{
    struct element e;
    uint32_t status = element_of(rest, tag, &e);
    if (status)
        return status;
    inside->data = rest->data;
    inside->at = e.start;
    inside->end = e.end;
    return SEC1_OK;
}

/* Reads an element with this tag, whose content passes the test. */
static uint32_t value_of(struct rest *rest, int tag, is_content *test, struct element *e)
{
    uint32_t status = element_of(rest, tag, e);
    if (status == SEC1_OK && !test(rest->data + e->start, e->end - e->start))
        status = refuse(SEC1_VALUE, e->start);
    return status;
}

/* Reads such an element if its tag is next. */
static uint32_t optional_value_of(struct rest *rest, uint8_t tag, is_content *test)
{
    struct element e;
    return begins_with(*rest, tag) ? value_of(rest, tag, test, &e) : (uint32_t)SEC1_OK;
}

/* Reads to the end of a row. */
static uint32_t each_of(struct rest *row, read_one *one)
{
    uint32_t status = SEC1_OK;
    while (status == SEC1_OK && row->at < row->end)
        status = one(row);
    return status;
}

/* ---- contents */

/* X.690 section 8.19.2 */
static int is_subidentifiers(const uint8_t *content, size_t len)
{
    int begins = 1;
    for (size_t i = 0; i < len; i++) {
        if (begins && content[i] == 0x80)
            return 0;
        begins = content[i] < 0x80;
    }
    return len > 0 && begins;
}

/* X.690 sections 8.6.2 and 11.2.1 */
static int is_bits(const uint8_t *content, size_t len)
{
    if (len < 2)
        return len == 1 && content[0] == 0;
    return content[0] <= 7 && (content[len - 1] & ((1 << content[0]) - 1)) == 0;
}

/* X.690 section 8.3.2 */
static int is_integer(const uint8_t *content, size_t len)
{
    if (len < 2)
        return len == 1;
    return !(content[0] == 0x00 && content[1] < 0x80)
           && !(content[0] == 0xFF && content[1] >= 0x80);
}

/* RFC 5280 section 4.1.2.1; X.690 section 11.5: v1 is the default, and isn't written. */
static int is_later_version(const uint8_t *content, size_t len)
{
    return len == 1 && (content[0] == 1 || content[0] == 2);
}

/* X.690 sections 11.1 and 11.5: FALSE is the default of `critical`, and isn't written. */
static int is_true(const uint8_t *content, size_t len)
{
    return len == 1 && content[0] == 0xFF;
}

static int are_digits(const uint8_t *text, size_t len)
{
    for (size_t i = 0; i < len; i++)
        if (text[i] < '0' || text[i] > '9')
            return 0;
    return 1;
}

static unsigned two(const uint8_t *digits)
{
    return 10u * (unsigned)(digits[0] - '0') + (unsigned)(digits[1] - '0');
}

/* Whether MMDDhhmmss is a time in this year. */
static int is_moment(unsigned year, const uint8_t *text)
{
    static const uint8_t days[] = {31, 28, 31, 30, 31, 30, 31, 31, 30, 31, 30, 31};
    unsigned leap = (year % 4 == 0 && year % 100) || year % 400 == 0;
    unsigned month = two(text), day = two(text + 2);
    return month >= 1 && month <= 12 && day >= 1
           && day <= days[month - 1] + (month == 2 ? leap : 0) && two(text + 4) < 24
           && two(text + 6) < 60 && two(text + 8) < 60;
}

/* RFC 5280 section 4.1.2.5.1: YYMMDDhhmmssZ */
static int is_utc_time(const uint8_t *text, size_t len)
{
    if (len != 13 || !are_digits(text, 12) || text[12] != 'Z')
        return 0;
    return is_moment(two(text) + (two(text) < 50 ? 2000 : 1900), text + 2);
}

/* X.690 section 11.7: YYYYMMDDhhmmssZ, and a fraction that doesn't end in 0 */
static int is_generalized_time(const uint8_t *text, size_t len)
{
    if (len < 15 || !are_digits(text, 14) || text[len - 1] != 'Z')
        return 0;
    if (len > 15
        && (len < 17 || text[14] != '.' || !are_digits(text + 15, len - 16)
            || text[len - 2] == '0'))
        return 0;
    return is_moment(100 * two(text) + two(text + 2), text + 4);
}

/* ---- algorithms */

/* The length of a field element of the curve with this identifier, of those over prime fields of
 * SEC 2, ANSI X9.62 and RFC 5639; 0 for another. */
static size_t curve_field(const uint8_t *content, size_t len)
{
    static const uint8_t sec[][2] = {{6, 14},  {7, 14},  {28, 16}, {29, 16}, {8, 20},
                                     {9, 20},  {30, 20}, {31, 24}, {32, 28}, {33, 28},
                                     {10, 32}, {34, 48}, {35, 66}};
    static const uint8_t ansi[] = {24, 24, 24, 30, 30, 30, 32};
    static const uint8_t brainpool[] = {20, 24, 28, 32, 40, 48, 64};
    uint8_t last = len ? content[len - 1] : 0;
    if (len == 8 && memcmp(content, "\x2A\x86\x48\xCE\x3D\x03\x01", 7) == 0)
        return last >= 1 && last <= 7 ? ansi[last - 1] : 0;
    if (len == 9 && memcmp(content, "\x2B\x24\x03\x03\x02\x08\x01\x01", 8) == 0)
        return last >= 1 && last <= 14 ? brainpool[(last - 1) / 2] : 0;
    if (len == 5 && memcmp(content, "\x2B\x81\x04\x00", 4) == 0)
        for (size_t i = 0; i < sizeof sec / sizeof *sec; i++)
            if (sec[i][0] == last)
                return sec[i][1];
    return 0;
}

/* The place of an algorithm, and the field length and the place of the curve that it names; 0 if it
 * names none. */
struct algorithm {
    size_t start, end;
    size_t field;
    struct sec1_part curve;
};

/* RFC 5280 section 4.1.1.2 and RFC 5480 section 2.1.1 */
static uint32_t algorithm_of(struct rest *rest, struct algorithm *algorithm)
{
    const uint8_t *data = rest->data;
    struct rest row;
    struct element name, e;
    size_t start = rest->at;
    uint32_t status = enter(rest, 0x30, &row);
    algorithm->start = start;
    algorithm->end = rest->at;
    algorithm->field = 0;
    if (status || (status = value_of(&row, 0x06, is_subidentifiers, &name)))
        return status;
    /* A byte that is no tag begins no parameters, so that it is a byte too many. */
    if (row.at == row.end || data[row.at] == 0 || (data[row.at] & 0x1F) == 0x1F)
        return end_of(&row);
    if ((status = element_of(&row, -1, &e)))
        return status;
    if (e.tag == 0x06 && name.end - name.start == 7
        && memcmp(data + name.start, "\x2A\x86\x48\xCE\x3D\x02\x01", 7) == 0)
        algorithm->field = curve_field(data + e.start, e.end - e.start);
    algorithm->curve = place(e.start, e.end);
    return end_of(&row);
}

static uint32_t some_algorithm(struct rest *rest)
{
    struct algorithm algorithm;
    return algorithm_of(rest, &algorithm);
}

/* ---- public keys */

/* RFC 5280 section 4.1: the algorithm and the key are stored. */
static uint32_t info_fields(struct rest *rest, struct algorithm *algorithm, struct element *key)
{
    struct rest row;
    uint32_t status = enter(rest, 0x30, &row);
    if (status || (status = algorithm_of(&row, algorithm))
        || (status = value_of(&row, 0x03, is_bits, key)))
        return status;
    return end_of(&row);
}

/* RFC 5480 section 2 */
static uint32_t info_of(const uint8_t *data, size_t len, struct sec1_public_key_parts *parts)
{
    struct rest rest = {data, 0, len};
    struct algorithm algorithm;
    struct element key;
    struct sec1_point_parts point;
    uint32_t status = info_fields(&rest, &algorithm, &key);
    if (status || (status = end_of(&rest)))
        return status;
    if (algorithm.field == 0)
        return refuse(SEC1_CURVE, algorithm.start);
    parts->curve = algorithm.curve;
    parts->public_key = place(key.start + 1, key.end);
    if (data[key.start]
        || point_of(data + key.start + 1, key.end - key.start - 1, algorithm.field, &point))
        return refuse(SEC1_POINT_ENCODING, algorithm.end);
    return SEC1_OK;
}

/* ---- signatures (RFC 3279 section 2.2.3) */

/* X.690 section 8.3.3: bit 8 of the first byte makes a number negative. */
static int is_unsigned(const uint8_t *content, size_t len)
{
    return is_integer(content, len) && content[0] < 0x80;
}

static uint32_t signature_of(const uint8_t *data, size_t len, struct sec1_signature_parts *parts)
{
    struct rest rest = {data, 0, len}, row;
    struct element r, s;
    uint32_t status = enter(&rest, 0x30, &row);
    if (status || (status = value_of(&row, 0x02, is_unsigned, &r))
        || (status = value_of(&row, 0x02, is_unsigned, &s)) || (status = end_of(&row))
        || (status = end_of(&rest)))
        return status;
    parts->r = place(r.start, r.end);
    parts->s = place(s.start, s.end);
    return SEC1_OK;
}

/* ---- private keys */

/* X.690 section 11.6: reads the elements of a SET, which ascend as octet strings do. */
static uint32_t set_of(struct rest *row, read_one *one)
{
    size_t start = row->at, last = row->at, last_len = 0;
    int ascend = 1;
    while (row->at < row->end) {
        size_t at = row->at, least;
        uint32_t status = one(row);
        if (status)
            return status;
        least = row->at - at < last_len ? row->at - at : last_len;
        ascend &= memcmp(row->data + last, row->data + at, least) <= 0;
        last = at;
        last_len = row->at - at;
    }
    return ascend ? (uint32_t)SEC1_OK : refuse(SEC1_VALUE, start);
}

/* RFC 5958 section 2: Attribute, whose values aren't examined. */
static uint32_t key_attribute(struct rest *rest)
{
    struct rest row;
    struct element e;
    uint32_t status = enter(rest, 0x30, &row);
    if (status || (status = value_of(&row, 0x06, is_subidentifiers, &e))
        || (status = element_of(&row, 0x31, &e)))
        return status;
    return end_of(&row);
}

/* RFC 5958 section 2: only version 1 has a public key. */
static uint32_t container_of(const uint8_t *data, size_t len,
                             struct sec1_private_key_info_parts *parts)
{
    struct rest rest = {data, 0, len}, row, inside;
    struct algorithm algorithm;
    struct element version, key;
    uint32_t status = enter(&rest, 0x30, &row);
    if (status || (status = element_of(&row, 0x02, &version)))
        return status;
    if (version.end - version.start != 1 || data[version.start] > 1)
        return refuse(SEC1_VALUE, version.start);
    if ((status = algorithm_of(&row, &algorithm)) || (status = element_of(&row, 0x04, &key)))
        return status;
    if (begins_with(row, 0xA0)
        && ((status = enter(&row, 0xA0, &inside)) || (status = set_of(&inside, key_attribute))))
        return status;
    if (data[version.start] == 1 && (status = optional_value_of(&row, 0x81, is_bits)))
        return status;
    if ((status = end_of(&row)) || (status = end_of(&rest)))
        return status;
    parts->curve = algorithm.curve;
    parts->key = place(key.start, key.end);
    return algorithm.field ? (uint32_t)SEC1_OK : refuse(SEC1_CURVE, algorithm.start);
}

/* Bytes that begin with a SEQUENCE, and in it an INTEGER and the tag of a SEQUENCE, are a container
 * (RFC 5958 section 2), and others a key by itself (RFC 5915 section 3). */
static uint32_t private_key_of(const uint8_t *data, size_t len, struct sec1_key_parts *parts)
{
    struct rest rest = {data, 0, len}, row;
    struct element version;
    struct sec1_private_key_info_parts container;
    uint32_t status;
    if (enter(&rest, 0x30, &row) || element_of(&row, 0x02, &version) || !begins_with(row, 0x30))
        return key_of(data, len, parts);
    if ((status = container_of(data, len, &container)))
        return status;
    if ((status = key_of(data + container.key.offset, container.key.len, parts)))
        return refuse(status, container.key.offset + fault_at);
    parts->private_key.offset += container.key.offset;
    if (parts->public_key.present)
        parts->public_key.offset += container.key.offset;
    if (parts->curve.present
        && (parts->curve.len != container.curve.len
            || memcmp(data + container.key.offset + parts->curve.offset,
                      data + container.curve.offset, container.curve.len)))
        return refuse(SEC1_OTHER_CURVE, container.key.offset + parts->curve.offset);
    parts->curve = container.curve;
    return SEC1_OK;
}

/* ---- certificates (RFC 5280 section 4.1) */

/* AttributeTypeAndValue */
static uint32_t name_attribute(struct rest *rest)
{
    struct rest row;
    struct element e;
    uint32_t status = enter(rest, 0x30, &row);
    if (status || (status = value_of(&row, 0x06, is_subidentifiers, &e))
        || (status = element_of(&row, -1, &e)))
        return status;
    return end_of(&row);
}

static uint32_t distinguished_name(struct rest *rest)
{
    struct rest set;
    uint32_t status = enter(rest, 0x31, &set);
    return status ? status : set_of(&set, name_attribute);
}

static uint32_t name_of(struct rest *rest)
{
    struct rest row;
    uint32_t status = enter(rest, 0x30, &row);
    return status ? status : each_of(&row, distinguished_name);
}

static uint32_t time_of(struct rest *rest)
{
    struct element e;
    return begins_with(*rest, 0x17) ? value_of(rest, 0x17, is_utc_time, &e)
                                    : value_of(rest, 0x18, is_generalized_time, &e);
}

static uint32_t validity_of(struct rest *rest)
{
    struct rest row;
    uint32_t status = enter(rest, 0x30, &row);
    if (status || (status = time_of(&row)) || (status = time_of(&row)))
        return status;
    return end_of(&row);
}

static uint32_t extension_of(struct rest *rest)
{
    struct rest row;
    struct element e;
    uint32_t status = enter(rest, 0x30, &row);
    if (status || (status = value_of(&row, 0x06, is_subidentifiers, &e))
        || (status = optional_value_of(&row, 0x01, is_true))
        || (status = element_of(&row, 0x04, &e)))
        return status;
    return end_of(&row);
}

/* The field [0] with the version. */
static uint32_t version_field(struct rest *rest)
{
    struct rest inside;
    struct element e;
    uint32_t status = enter(rest, 0xA0, &inside);
    if (status || (status = value_of(&inside, 0x02, is_later_version, &e)))
        return status;
    return end_of(&inside);
}

/* The field [3] with the extensions. */
static uint32_t extensions_field(struct rest *rest)
{
    struct rest inside, row;
    uint32_t status = enter(rest, 0xA3, &inside);
    if (status || (status = enter(&inside, 0x30, &row)) || (status = each_of(&row, extension_of)))
        return status;
    return end_of(&inside);
}

/* TBSCertificate: the place of its SubjectPublicKeyInfo is stored. */
static uint32_t tbs_of(struct rest *rest, struct sec1_part *info)
{
    struct rest row;
    struct element e;
    struct algorithm algorithm;
    size_t start;
    uint32_t status = enter(rest, 0x30, &row);
    if (status || (begins_with(row, 0xA0) && (status = version_field(&row)))
        || (status = value_of(&row, 0x02, is_integer, &e)) || (status = some_algorithm(&row))
        || (status = name_of(&row)) || (status = validity_of(&row)) || (status = name_of(&row)))
        return status;
    start = row.at;
    if ((status = info_fields(&row, &algorithm, &e)))
        return status;
    *info = place(start, row.at);
    if ((status = optional_value_of(&row, 0x81, is_bits))
        || (status = optional_value_of(&row, 0x82, is_bits))
        || (begins_with(row, 0xA3) && (status = extensions_field(&row))))
        return status;
    return end_of(&row);
}

static uint32_t certificate_of(const uint8_t *data, size_t len, struct sec1_part *info)
{
    struct rest rest = {data, 0, len}, row;
    struct element e;
    uint32_t status = enter(&rest, 0x30, &row);
    if (status || (status = tbs_of(&row, info)) || (status = some_algorithm(&row))
        || (status = value_of(&row, 0x03, is_bits, &e)) || (status = end_of(&row)))
        return status;
    return end_of(&rest);
}
