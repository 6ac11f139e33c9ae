/* A million inputs through every call, compared with the second readers of reader.h and records.h:
 * the status, what is stored, and that nothing else is written. Each input and each buffer is
 * against a page behind it or before it that can't be touched. */
#define _GNU_SOURCE
#include "inputs.h"
#include <stdio.h>
#include <stdlib.h>
#include <sys/mman.h>
#include <unistd.h>

enum { INPUTS = 1000000, MOST = 2048, STATUSES = 13 };

/* ---- memory between pages that can't be touched */

struct arena {
    uint8_t *begin, *end;
};

static struct arena map_arena(void)
{
    size_t page = (size_t)sysconf(_SC_PAGESIZE), size = (MOST + page - 1) / page * page;
    struct arena arena;
    uint8_t *pages = mmap(NULL, size + 2 * page, PROT_NONE, MAP_PRIVATE | MAP_ANONYMOUS, -1, 0);
    if (pages == MAP_FAILED || mprotect(pages + page, size, PROT_READ | PROT_WRITE)) {
        perror("mmap");
        exit(2);
    }
    arena.begin = pages + page;
    arena.end = arena.begin + size;
    return arena;
}

static struct arena input_arena, other_arena, out_arena, struct_arena, text_arena;
static int at_end;

/* Room for len bytes, against the page behind it or the page before it. */
static uint8_t *room(struct arena arena, size_t len)
{
    return at_end ? arena.end - len : arena.begin;
}

/* Room for len bytes of this value. */
static uint8_t *filled(struct arena arena, size_t len, uint8_t value)
{
    return memset(room(arena, len), value, len);
}

static int all_are(const uint8_t *bytes, size_t len, uint8_t value)
{
    for (size_t i = 0; i < len; i++)
        if (bytes[i] != value)
            return 0;
    return 1;
}

/* ---- results */

enum call {
    KEY_READ,
    KEY_WRITE,
    TREE,
    DOCUMENT,
    POINT,
    FORM,
    COMPARE,
    TO_TEXT,
    FROM_TEXT,
    KEY_FAULT,
    KEY_READ_AT,
    TREE_FAULT,
    ELEMENT,
    ELEMENT_WRITE,
    IDENTIFIER,
    MADE,
    TO_HEX,
    FROM_HEX,
    PUBLIC_KEY,
    PUBLIC_KEY_FAULT,
    CONTAINER,
    CONTAINER_FAULT,
    CERTIFICATE,
    CERTIFICATE_FAULT,
    PRIVATE_KEY,
    PRIVATE_KEY_FAULT,
    PUBLIC_KEY_WRITE,
    CONTAINER_WRITE,
    SIGNATURE,
    SIGNATURE_FAULT,
    SIGNATURE_WRITE,
    ARCS,
    INPUT,
    CALLS
};
static const char *const names[CALLS] = {
    "sec1_key_read",
    "sec1_key_len and sec1_key_write",
    "sec1_tree_check",
    "sec1_document_len",
    "sec1_point_read and sec1_point_check",
    "sec1_point_compress and sec1_point_to_hybrid",
    "sec1_point_compare",
    "sec1_identifier_to_text",
    "sec1_identifier_from_text",
    "sec1_key_fault_at",
    "sec1_key_read_at",
    "sec1_tree_fault_at",
    "sec1_element_read",
    "sec1_element_write",
    "sec1_identifier_check",
    "sec1_point_from_coordinates",
    "sec1_point_to_hex",
    "sec1_point_from_hex",
    "sec1_public_key_read",
    "sec1_public_key_fault_at",
    "sec1_private_key_info_read",
    "sec1_private_key_info_fault_at",
    "sec1_certificate_read_public_key",
    "sec1_certificate_fault_at",
    "sec1_private_key_read",
    "sec1_private_key_fault_at",
    "sec1_public_key_write",
    "sec1_private_key_info_write",
    "sec1_signature_read",
    "sec1_signature_fault_at",
    "sec1_signature_write",
    "sec1_identifier_arcs",
    "inputs that are unchanged",
};
/* the statuses that each call returns at least once here, as bits */
static const unsigned wanted[CALLS] = {0x3F,  0xA1,  0x11F, 0x1F,  0x601, 0x681, 0x601,
                                       0xA1,  0xA1,  0x3F,  0x3F,  0x11F, 0xF,   0x85,
                                       0x21,  0x481, 0x681, 0x681, 0xA3F, 0xA3F, 0x83F,
                                       0x83F, 0x3F,  0x3F,  0x183F, 0x183F, 0xA81, 0x881,
                                       0x3F,  0x3F,  0x81,  0xA1,  1};
static unsigned long counts[CALLS][STATUSES], wrong[CALLS];
static struct {
    uint8_t data[MOST];
    size_t len;
} now;

static void expect(enum call call, uint32_t status, int holds)
{
    if (status < STATUSES)
        counts[call][status]++;
    if (!holds && ++wrong[call] <= 5) {
        printf("FAILED: %s, status %u: ", names[call], (unsigned)status);
        for (size_t i = 0; i < now.len; i++)
            printf("%02X", now.data[i]);
        printf("\n");
    }
}

/* Whether a call that writes bytes did as it has to: its status, the length and the buffer. */
static int writes(uint32_t status, size_t len, const uint8_t *out, size_t out_len, uint32_t refused,
                  const uint8_t *bytes, size_t bytes_len)
{
    if (refused)
        return status == refused && len == 777777 && all_are(out, out_len, 0xEE);
    if (len != bytes_len)
        return 0;
    if (out_len < bytes_len)
        return status == SEC1_BUFFER && all_are(out, out_len, 0xEE);
    return status == SEC1_OK && memcmp(out, bytes, bytes_len) == 0
           && all_are(out + bytes_len, out_len - bytes_len, 0xEE);
}

/* A length of a buffer for this number of bytes: none, one too few, as many, or a few more. */
static size_t some_room(size_t len)
{
    switch (draw(5)) {
    case 0: return len ? len - 1 : 0;
    case 1: return draw((uint32_t)len + 1);
    case 2: return len + draw(4);
    default: return len;
    }
}

/* The buffer, or NULL where there is no room, now and then. */
static uint8_t *buffer(size_t len)
{
    return len == 0 && draw(2) ? NULL : filled(out_arena, len, 0xEE);
}

/* ---- the calls */

/* Writes a key from its parts, which are in the memory of the input. */
static void check_key_write(const uint8_t *private_key, size_t private_len, const uint8_t *curve,
                            size_t curve_len, const uint8_t *public_key, size_t public_len,
                            size_t has)
{
    static uint8_t key[MOST + 64], field[MOST + 64];
    static const uint8_t version = 1;
    struct arcs arcs;
    size_t key_len = put(key, 0x02, &version, 1), len = 777777, only_len = 777777;
    key_len += put(key + key_len, 0x04, private_key, private_len);
    if (curve_len) {
        size_t inner = put(field, 0x06, curve, curve_len);
        key_len += put(key + key_len, 0xA0, field, inner);
    }
    if (has) {
        field[0] = 0;
        if (public_len)
            memcpy(field + 1, public_key, public_len);
        key_len += put(key + key_len, 0xA1, field, wrap(field, 0x03, 1 + public_len));
    }
    key_len = wrap(key, 0x30, key_len);
    uint32_t refused = curve_len && !is_identifier(curve, curve_len, &arcs) ? SEC1_VALUE : SEC1_OK;
    size_t out_len = some_room(key_len);
    uint8_t *out = buffer(out_len);
    uint32_t status = sec1_key_write(private_key, private_len, curve, curve_len, public_key,
                                     public_len, has, out, out_len, &len);
    uint32_t only = sec1_key_len(private_key, private_len, curve, curve_len, public_key, public_len,
                                 has, &only_len);
    expect(KEY_WRITE, status,
           writes(status, len, out, out_len, refused, key, key_len) && only == refused
               && only_len == (refused ? 777777 : key_len));
}

/* A call that tells the first fault, whose status and offset are known. */
static void check_fault(enum call call, uint32_t (*fault_at_of)(const uint8_t *, size_t, size_t *),
                        const uint8_t *bytes, size_t len, uint32_t refused, size_t at)
{
    size_t *stored = (size_t *)filled(struct_arena, sizeof *stored, 0xA5), before = *stored;
    uint32_t status = fault_at_of(bytes, len, stored);
    expect(call, status, status == refused && *stored == (refused ? at : before));
}

/* The call that stores the parts of a key or the offset of the first fault, as they are known. */
static void check_read_at(const uint8_t *bytes, size_t len, uint32_t refused,
                          const struct sec1_key_parts *found)
{
    struct sec1_key_parts *parts =
        (struct sec1_key_parts *)filled(struct_arena, sizeof *parts, 0xA5);
    size_t *offset = (size_t *)filled(out_arena, sizeof *offset, 0xEE), before = *offset;
    uint32_t status = sec1_key_read_at(bytes, len, parts, offset);
    expect(KEY_READ_AT, status,
           status == refused && *offset == (refused ? fault_at : before)
               && (refused ? all_are((uint8_t *)parts, sizeof *parts, 0xA5)
                           : memcmp(parts, found, sizeof *parts) == 0));
}

static void check_key(const uint8_t *bytes, size_t len)
{
    struct sec1_key_parts found,
        *stored = (struct sec1_key_parts *)filled(struct_arena, sizeof found, 0xA5);
    uint32_t refused = key_of(bytes, len, &found), status = sec1_key_read(bytes, len, stored);
    expect(KEY_READ, status,
           status == refused
               && (refused ? all_are((uint8_t *)stored, sizeof found, 0xA5)
                           : memcmp(stored, &found, sizeof found) == 0));
    check_fault(KEY_FAULT, sec1_key_fault_at, bytes, len, refused, fault_at);
    check_read_at(bytes, len, refused, &found);
    stored =
        (struct sec1_key_parts *)memcpy(room(struct_arena, sizeof found), &found, sizeof found);
    if (status == SEC1_OK) {
        check_key_write(bytes + stored->private_key.offset, stored->private_key.len,
                        bytes + stored->curve.offset, stored->curve.len,
                        bytes + stored->public_key.offset, stored->public_key.len,
                        stored->public_key.present);
    } else {
        size_t a = draw((uint32_t)len + 1), b = a + draw((uint32_t)(len - a) + 1);
        if (b - a > 39 && draw(8))
            b = a + draw(12);
        check_key_write(bytes, a, b == a ? NULL : bytes + a, b - a, bytes + b, len - b, draw(3));
    }
}

/* Whether a call that stores a struct returned this status, and stored it on success alone. */
static int stores(uint32_t status, uint32_t refused, const void *stored, const void *found,
                  size_t size)
{
    return status == refused
           && (refused ? all_are(stored, size, 0xA5) : memcmp(stored, found, size) == 0);
}

static void check_records(const uint8_t *bytes, size_t len)
{
    struct sec1_public_key_parts key;
    struct sec1_private_key_info_parts container;
    struct sec1_part info;
    void *stored = filled(struct_arena, sizeof key, 0xA5);
    uint32_t refused = info_of(bytes, len, &key), status = sec1_public_key_read(bytes, len, stored);
    expect(PUBLIC_KEY, status, stores(status, refused, stored, &key, sizeof key));
    check_fault(PUBLIC_KEY_FAULT, sec1_public_key_fault_at, bytes, len, refused, fault_at);
    stored = filled(struct_arena, sizeof container, 0xA5);
    refused = container_of(bytes, len, &container);
    status = sec1_private_key_info_read(bytes, len, stored);
    expect(CONTAINER, status, stores(status, refused, stored, &container, sizeof container));
    check_fault(CONTAINER_FAULT, sec1_private_key_info_fault_at, bytes, len, refused, fault_at);
    struct sec1_key_parts inside;
    stored = filled(struct_arena, sizeof inside, 0xA5);
    refused = private_key_of(bytes, len, &inside);
    status = sec1_private_key_read(bytes, len, stored);
    expect(PRIVATE_KEY, status, stores(status, refused, stored, &inside, sizeof inside));
    check_fault(PRIVATE_KEY_FAULT, sec1_private_key_fault_at, bytes, len, refused, fault_at);
    stored = filled(struct_arena, sizeof info, 0xA5);
    refused = certificate_of(bytes, len, &info);
    status = sec1_certificate_read_public_key(bytes, len, stored);
    expect(CERTIFICATE, status, stores(status, refused, stored, &info, sizeof info));
    check_fault(CERTIFICATE_FAULT, sec1_certificate_fault_at, bytes, len, refused, fault_at);
}

static const uint8_t ec_public_key[] = {0x2A, 0x86, 0x48, 0xCE, 0x3D, 0x02, 0x01};

/* The AlgorithmIdentifier of keys on a curve (RFC 5480 section 2.1.1). */
static size_t put_algorithm(uint8_t *out, const uint8_t *curve, size_t curve_len)
{
    size_t len = put(out, 0x06, ec_public_key, sizeof ec_public_key);
    len += put(out + len, 0x06, curve, curve_len);
    return wrap(out, 0x30, len);
}

/* Writes the point with this encoding as a public key on some curve, and a private key of these
 * bytes in its container. */
static void check_written_keys(const uint8_t *bytes, size_t len)
{
    static uint8_t whole[MOST + 256], inside[MOST + 256], bits[MOST + 64];
    uint8_t drawn[16];
    struct sec1_point_parts point;
    size_t curve_len = draw_curve(drawn) - 2, found = 777777, inside_len, whole_len;
    uint8_t *curve = memcpy(room(text_arena, curve_len), drawn + 2, curve_len);
    size_t field = curve_field(curve, curve_len), has = draw(3);
    uint32_t refused = field ? point_of(bytes, len, field, &point) : SEC1_CURVE;
    bits[0] = 0;
    if (len)
        memcpy(bits + 1, bytes, len);
    whole_len = put_algorithm(whole, curve, curve_len);
    whole_len += put(whole + whole_len, 0x03, bits, len + 1);
    whole_len = wrap(whole, 0x30, whole_len);
    size_t out_len = some_room(whole_len);
    uint8_t *out = buffer(out_len);
    uint32_t status = sec1_public_key_write(curve, curve_len, bytes, len, out, out_len, &found);
    expect(PUBLIC_KEY_WRITE, status,
           writes(status, found, out, out_len, refused, whole, whole_len));

    size_t private_len = draw((uint32_t)len + 1), public_len = len - private_len;
    const uint8_t *public_key = len ? bytes + private_len : NULL;
    inside_len = put(inside, 0x02, (const uint8_t *)"\x01", 1);
    inside_len += put(inside + inside_len, 0x04, bytes, private_len);
    if (has) {
        if (public_len)
            memcpy(bits + 1, public_key, public_len);
        inside_len += put(inside + inside_len, 0xA1, bits, wrap(bits, 0x03, public_len + 1));
    }
    inside_len = wrap(inside, 0x30, inside_len);
    whole_len = put(whole, 0x02, (const uint8_t *)"", 1);
    whole_len += put_algorithm(whole + whole_len, curve, curve_len);
    whole_len += put(whole + whole_len, 0x04, inside, inside_len);
    whole_len = wrap(whole, 0x30, whole_len);
    out_len = some_room(whole_len);
    out = buffer(out_len);
    found = 777777;
    status = sec1_private_key_info_write(bytes, private_len, curve, curve_len, public_key,
                                         public_len, has, out, out_len, &found);
    expect(CONTAINER_WRITE, status,
           writes(status, found, out, out_len, field ? SEC1_OK : SEC1_CURVE, whole, whole_len));
}

/* The content of the INTEGER of a number with these digits (X.690 section 8.3). */
static size_t put_integer(uint8_t *out, const uint8_t *digits, size_t len)
{
    size_t zeros = 0, at = 0;
    while (at < len && digits[at] == 0)
        at++;
    if (at == len || digits[at] >= 0x80)
        out[zeros++] = 0;
    if (at < len)
        memcpy(out + zeros, digits + at, len - at);
    return zeros + len - at;
}

/* Reads a signature, and writes one whose numbers are the parts that were read, or the beginning
 * and the end of the bytes. */
static void check_signature(const uint8_t *bytes, size_t len)
{
    static uint8_t number[MOST + 64], whole[2 * MOST + 128];
    struct sec1_signature_parts found;
    void *stored = filled(struct_arena, sizeof found, 0xA5);
    uint32_t refused = signature_of(bytes, len, &found),
             status = sec1_signature_read(bytes, len, stored);
    expect(SIGNATURE, status, stores(status, refused, stored, &found, sizeof found));
    check_fault(SIGNATURE_FAULT, sec1_signature_fault_at, bytes, len, refused, fault_at);

    size_t r_at = 0, r_len = draw((uint32_t)len + 1), s_at = r_len, s_len = len - r_len;
    if (!refused) {
        r_at = found.r.offset, r_len = found.r.len;
        s_at = found.s.offset, s_len = found.s.len;
    }
    const uint8_t *r = r_len ? bytes + r_at : NULL, *s = s_len ? bytes + s_at : NULL;
    size_t whole_len = put(whole, 0x02, number, put_integer(number, r, r_len)), written = 777777;
    whole_len += put(whole + whole_len, 0x02, number, put_integer(number, s, s_len));
    whole_len = wrap(whole, 0x30, whole_len);
    size_t out_len = some_room(whole_len);
    uint8_t *out = buffer(out_len);
    status = sec1_signature_write(r, r_len, s, s_len, out, out_len, &written);
    expect(SIGNATURE_WRITE, status,
           writes(status, written, out, out_len, SEC1_OK, whole, whole_len)
               && (refused || (whole_len == len && memcmp(whole, bytes, len) == 0)));
}

static void check_elements(const uint8_t *bytes, size_t len)
{
    size_t found = 0, *stored = (size_t *)filled(struct_arena, sizeof found, 0xA5),
           before = *stored;
    uint32_t refused = check_tree_of(bytes, len, &found),
             status = sec1_tree_check(bytes, len, stored);
    expect(TREE, status, status == refused && *stored == (refused ? before : found));
    check_fault(TREE_FAULT, sec1_tree_fault_at, bytes, len, refused, fault_at);
    refused = document_of(bytes, len, &found);
    status = sec1_document_len(bytes, len, stored);
    expect(DOCUMENT, status, status == refused && *stored == found);

    struct rest rest = {bytes, 0, len};
    struct element e = {0, 0, 0};
    size_t *header_len = (size_t *)filled(struct_arena, 2 * sizeof found, 0xA5),
           *content_len = header_len + 1;
    refused = element_of(&rest, -1, &e);
    status = sec1_element_read(bytes, len, header_len, content_len);
    expect(ELEMENT, status,
           status == refused && *header_len == (refused ? before : e.start)
               && *content_len == (refused ? before : e.end - e.start));
}

/* Writes an element around the bytes. Its tag is their first one, if they have some. */
static void check_element_write(const uint8_t *bytes, size_t len)
{
    static uint8_t whole[MOST + 64];
    size_t tag = len && draw(8) ? bytes[0] : draw(300), found = 777777;
    uint32_t refused = tag == 0 || tag > 255 || tag % 32 == 31 ? SEC1_TAG : SEC1_OK;
    size_t whole_len = put(whole, (uint8_t)tag, bytes, len), out_len = some_room(whole_len);
    uint8_t *out = buffer(out_len);
    uint32_t status = sec1_element_write(tag, bytes, len, out, out_len, &found);
    expect(ELEMENT_WRITE, status, writes(status, found, out, out_len, refused, whole, whole_len));
}

static void check_point(const uint8_t *bytes, size_t len, size_t n, const uint8_t *other,
                        size_t other_len)
{
    static uint8_t form[MOST];
    struct sec1_point_parts found, others,
        *stored = (struct sec1_point_parts *)filled(struct_arena, sizeof found, 0xA5);
    uint32_t refused = point_of(bytes, len, n, &found),
             status = sec1_point_read(bytes, len, n, stored);
    expect(POINT, status,
           status == refused && sec1_point_check(bytes, len, n) == refused
               && (refused ? all_are((uint8_t *)stored, sizeof found, 0xA5)
                           : memcmp(stored, &found, sizeof found) == 0));

    for (int compressed = 0; compressed < 2; compressed++) {
        size_t form_len = refused ? draw(140) : put_form(form, bytes, len, compressed);
        size_t out_len = some_room(form_len), form_found = 777777;
        uint8_t *out = buffer(out_len);
        status = compressed ? sec1_point_compress(bytes, len, n, out, out_len, &form_found)
                            : sec1_point_to_hybrid(bytes, len, n, out, out_len, &form_found);
        expect(FORM, status, writes(status, form_found, out, out_len, refused, form, form_len));
    }

    int32_t *order = (int32_t *)filled(struct_arena, sizeof *order, 0xA5), before = *order;
    if (!refused)
        refused = point_of(other, other_len, n, &others);
    status = sec1_point_compare(bytes, len, other, other_len, n, order);
    if (refused) {
        expect(COMPARE, status, status == refused && *order == before);
    } else {
        int sign = memcmp(bytes, other, len < other_len ? len : other_len);
        expect(COMPARE, status, status == SEC1_OK && *order == (sign > 0) - (sign < 0));
    }
}

/* A point whose coordinates are at the beginning of the bytes and behind them. */
static void check_made(const uint8_t *bytes, size_t len)
{
    static uint8_t form[MOST];
    size_t x_len = draw(8) ? len / 2 : draw((uint32_t)len + 1);
    size_t y_len = draw(8) ? x_len : len - x_len, form_len = 1 + x_len, found = 777777;
    size_t compress_by = draw(3);
    if (x_len + y_len > len)
        y_len = len - x_len;
    uint32_t refused = x_len && x_len <= 66 && y_len == x_len ? SEC1_OK : SEC1_FIELD_LENGTH;
    form[0] = compress_by == 0 ? 4 : y_len && bytes[x_len + y_len - 1] % 2 ? 3 : 2;
    if (x_len)
        memcpy(form + 1, bytes, x_len);
    if (compress_by == 0 && y_len) {
        memcpy(form + form_len, bytes + x_len, y_len);
        form_len += y_len;
    }
    size_t out_len = some_room(form_len);
    uint8_t *out = buffer(out_len);
    uint32_t status = sec1_point_from_coordinates(bytes, x_len, x_len ? bytes + x_len : bytes,
                                                  y_len, compress_by, out, out_len, &found);
    expect(MADE, status, writes(status, found, out, out_len, refused, form, form_len));
}

/* The text of some bytes, and back. Its letters are of both cases now and then. */
static void check_hex(const uint8_t *bytes, size_t len, size_t n)
{
    static const char glyphs[2][17] = {"0123456789ABCDEF", "0123456789abcdef"};
    static char text[2 * MOST + 2];
    struct sec1_point_parts parts;
    size_t lower = draw(2), text_len = 2 * len, found = 777777;
    uint32_t refused = point_of(bytes, len, n, &parts);
    for (size_t i = 0; i < text_len; i++)
        text[i] = glyphs[lower][bytes[i / 2] >> (i % 2 ? 0 : 4) & 0xF];
    text[text_len] = 0;
    size_t out_len = some_room(text_len + 1);
    uint8_t *out = buffer(out_len);
    uint32_t status = sec1_point_to_hex(bytes, len, n, lower, (char *)out, out_len, &found);
    expect(TO_HEX, status,
           writes(status, found, out, out_len, refused, (uint8_t *)text, text_len + 1));

    size_t uppers = 0, lowers = 0, others = 0;
    if (text_len && draw(3) == 0)
        text[draw((uint32_t)text_len)] = "0aFgGb:@"[draw(8)];
    text_len -= text_len && draw(16) == 0;
    for (size_t i = 0; i < text_len; i++) {
        uppers += text[i] >= 'A' && text[i] <= 'F';
        lowers += text[i] >= 'a' && text[i] <= 'f';
        others += strchr("0123456789abcdefABCDEF", text[i]) == NULL;
    }
    static uint8_t point[MOST];
    size_t count = text_len / 2;
    refused = n == 0 || n > 66 ? SEC1_FIELD_LENGTH : SEC1_OK;
    if (!refused && (text_len % 2 || others || (uppers && lowers)))
        refused = SEC1_POINT_ENCODING;
    for (size_t i = 0; !refused && i < 2 * count; i++) {
        size_t digit = (size_t)(strchr(glyphs[lowers > 0], text[i]) - glyphs[lowers > 0]);
        point[i / 2] = (uint8_t)(point[i / 2] << 4 | digit);
    }
    refused = refused ? refused : point_of(point, count, n, &parts);
    uint8_t *given = memcpy(room(text_arena, text_len), text, text_len);
    found = 777777;
    out_len = some_room(count);
    out = buffer(out_len);
    status = sec1_point_from_hex((char *)given, text_len, n, out, out_len, &found);
    expect(FROM_HEX, status, writes(status, found, out, out_len, refused, point, count));
}

static void check_identifier(const uint8_t *bytes, size_t len)
{
    char text[512];
    uint8_t content[48];
    struct arcs arcs;
    size_t found = 777777, wanted_len;
    uint32_t refused = is_identifier(bytes, len, &arcs) ? SEC1_OK : SEC1_VALUE;
    wanted_len = refused ? draw(180) : put_text(text, &arcs);
    size_t out_len = some_room(wanted_len);
    uint8_t *out = buffer(out_len);
    uint32_t status = sec1_identifier_to_text(bytes, len, (char *)out, out_len, &found);
    expect(IDENTIFIER, sec1_identifier_check(bytes, len),
           sec1_identifier_check(bytes, len) == refused);
    expect(TO_TEXT, status,
           writes(status, found, out, out_len, refused, (uint8_t *)text, wanted_len));

    found = 777777;
    wanted_len = refused ? 2 + draw(40) : arcs.count;
    out_len = some_room(wanted_len);
    size_t size = out_len * sizeof *arcs.arc;
    uint32_t *numbers = (uint32_t *)filled(out_arena, size, 0xEE);
    status = sec1_identifier_arcs(bytes, len, numbers, out_len, &found);
    expect(ARCS, status,
           writes(status, found == 777777 ? found : found * sizeof *arcs.arc, (uint8_t *)numbers,
                  size, refused, (uint8_t *)arcs.arc, wanted_len * sizeof *arcs.arc));

    found = 777777;
    wanted_len = put_content(content, (const char *)bytes, len);
    refused = wanted_len ? SEC1_OK : SEC1_VALUE;
    out_len = some_room(refused ? 40 : wanted_len);
    out = buffer(out_len);
    status = sec1_identifier_from_text((const char *)bytes, len, out, out_len, &found);
    expect(FROM_TEXT, status, writes(status, found, out, out_len, refused, content, wanted_len));
}

/* Makes every call over the input `now`, and over another point. */
static void check_calls(size_t n, const uint8_t *other, size_t other_len)
{
    uint8_t *bytes = memcpy(room(input_arena, now.len), now.data, now.len);
    uint8_t *others = memcpy(room(other_arena, other_len), other, other_len);
    const uint8_t *given = now.len == 0 && draw(2) ? NULL : bytes;
    check_key(bytes, now.len);
    check_records(given, now.len);
    check_signature(given, now.len);
    check_written_keys(given, now.len);
    check_elements(given, now.len);
    check_element_write(given, now.len);
    check_point(given, now.len, n, others, other_len);
    check_identifier(given, now.len);
    check_made(given, now.len);
    check_hex(given, now.len, n);
    expect(INPUT, 0,
           memcmp(bytes, now.data, now.len) == 0 && memcmp(others, other, other_len) == 0);
}

static void map_arenas(void)
{
    input_arena = map_arena();
    other_arena = map_arena();
    out_arena = map_arena();
    struct_arena = map_arena();
    text_arena = map_arena();
}

/* ---- inputs. fuzz.c has its own. */

#ifndef FUZZED
static size_t draw_input(uint8_t *out, size_t n)
{
    switch (draw(12)) {
    case 0: return draw_soup(out);
    case 1: return draw_content(out);
    case 2: return draw_text(out);
    case 3:
    case 4: return draw_point(out, n);
    case 5: return damage(out, draw_tree(out));
    case 6: return damage(out, draw_info(out));
    case 7: return damage(out, draw_container(out));
    case 8: return damage(out, draw_certificate(out));
    case 9: return damage(out, draw_signature(out));
    default: return damage(out, draw_key(out));
    }
}

int main(void)
{
    static const size_t fields[] = {28, 32, 48, 66};
    static uint8_t other[MOST];
    unsigned passed = 0, failed = 0;
    map_arenas();
    for (long i = 0; i < INPUTS; i++) {
        at_end = i % 2;
        size_t n = draw(2) ? fields[draw(4)] : draw(70);
        now.len = draw_input(now.data, n);
        size_t other_len = draw(2) ? draw_point(other, n) : now.len;
        if (other_len == now.len)
            memcpy(other, now.data, now.len);
        if (other_len == now.len && now.len && draw(2))
            other[now.len - 1] += 2;
        check_calls(n, other, other_len);
    }
    for (int call = 0; call < CALLS; call++) {
        unsigned met = 0;
        printf("%s:", names[call]);
        for (int status = 0; status < STATUSES; status++) {
            met |= (unsigned)(counts[call][status] > 0) << status;
            if (counts[call][status])
                printf(" %lu of %d", counts[call][status], status);
        }
        printf("\n");
        if (met != wanted[call])
            printf("FAILED: %s: the statuses %X aren't %X\n", names[call], met, wanted[call]);
        wrong[call] || met != wanted[call] ? failed++ : passed++;
    }
    printf("%u passed, %u failed\n", passed, failed);
    return failed != 0;
}
#endif
