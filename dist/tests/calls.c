/* Tests of each function of the library. Each input stands in pages of its own, which can only be
 * read, once against the page behind it and once against the page before it, which can't be read;
 * each buffer that is written into stands the same way. So a single byte read or written beyond
 * what a call is given ends the program. */
#define _GNU_SOURCE
#include "draw.h"
#include <sec1.h>
#include <stddef.h>
#include <stdio.h>
#include <stdlib.h>
#include <string.h>
#include <sys/mman.h>
#include <unistd.h>

/* ---- results */

static unsigned long passed, failed;

static void expect(int holds, const char *what, int line)
{
    if (holds) {
        passed++;
    } else {
        failed++;
        if (failed <= 50)
            printf("line %d: FAILED: %s\n", line, what);
    }
}

#define EXPECT(condition) expect((condition) ? 1 : 0, #condition, __LINE__)

/* ---- bytes between pages that can't be touched */

enum side { AT_END, AT_START };

struct guarded {
    uint8_t *pages;
    size_t size;
    uint8_t *data;
};

static size_t page_size;

/* Maps room for len bytes, against the page behind it or against the page before it. */
static struct guarded map_guarded(size_t len, enum side side)
{
    size_t inner = (len + page_size - 1) / page_size * page_size;
    struct guarded g = {0};
    g.size = inner + 2 * page_size;
    g.pages = mmap(NULL, g.size, PROT_NONE, MAP_PRIVATE | MAP_ANONYMOUS, -1, 0);
    if (g.pages == MAP_FAILED ||
        (inner && mprotect(g.pages + page_size, inner, PROT_READ | PROT_WRITE))) {
        perror("mmap");
        exit(2);
    }
    g.data = g.pages + page_size + (side == AT_END ? inner - len : 0);
    return g;
}

/* Maps a copy of the bytes that can only be read. */
static struct guarded map_input(const void *bytes, size_t len, enum side side)
{
    struct guarded g = map_guarded(len, side);
    if (len) {
        memcpy(g.data, bytes, len);
        if (mprotect(g.pages + page_size, g.size - 2 * page_size, PROT_READ)) {
            perror("mprotect");
            exit(2);
        }
    }
    return g;
}

static void unmap(struct guarded g)
{
    munmap(g.pages, g.size);
}

/* Whether len bytes have this value. */
static int all_are(const uint8_t *bytes, size_t len, uint8_t value)
{
    for (size_t i = 0; i < len; i++)
        if (bytes[i] != value)
            return 0;
    return 1;
}

/* ---- bytes from hexadecimal text */

struct bytes {
    size_t len;
    uint8_t data[4096];
};

static struct bytes unhex(const char *text)
{
    struct bytes b = {0};
    int high = -1;
    for (; *text; text++) {
        int digit = *text >= '0' && *text <= '9'   ? *text - '0'
                    : *text >= 'A' && *text <= 'F' ? *text - 'A' + 10
                                                   : -1;
        if (digit < 0)
            continue;
        if (high < 0) {
            high = digit;
        } else {
            b.data[b.len++] = (uint8_t)(high * 16 + digit);
            high = -1;
        }
    }
    return b;
}

static struct bytes text_bytes(const char *text)
{
    struct bytes b = {0};
    b.len = strlen(text);
    memcpy(b.data, text, b.len);
    return b;
}

static struct bytes joined(struct bytes a, struct bytes b)
{
    memcpy(a.data + a.len, b.data, b.len);
    a.len += b.len;
    return a;
}

static struct bytes repeated(uint8_t value, size_t len)
{
    struct bytes b = {0};
    b.len = len;
    memset(b.data, value, len);
    return b;
}

#define PRIVATE "69624171561A63340DE0E7D869F2A05492558E1A04868B6A9F854A866788188D"
#define X "1CACFFB55F2F2CEFD89D89EB374B2681152452802DEEA09916068137D839CF7F"
#define Y "C481A44492304D7EF66AC117BEFE83A8D08F155F2B52F9F618DD447029048E0F"
#define WHOLE_KEY "3077020101" "0420" PRIVATE "A00A06082A8648CE3D030107" "A144034200" "04" X Y

/* ---- calls with guarded arguments */

/* A call that stores what it read, and the size of that. */
typedef uint32_t reader(const uint8_t *bytes, size_t bytes_len, void *stored);

/* Reads an input that ends, and then one that begins, beside a page that can't be read. The result
 * is stored in the same way, by the same bytes both times, or not at all. */
static uint32_t read_guarded(reader *read, struct bytes input, void *stored, size_t size)
{
    uint32_t status[2];
    for (enum side side = AT_END; side <= AT_START; side++) {
        struct guarded in = map_input(input.data, input.len, side);
        struct guarded out = map_guarded(size, side);
        memset(out.data, 0xA5, size);
        status[side] = read(in.data, input.len, out.data);
        EXPECT(status[side] == SEC1_OK || all_are(out.data, size, 0xA5));
        EXPECT(side == AT_END || memcmp(stored, out.data, size) == 0);
        memcpy(stored, out.data, size);
        unmap(in);
        unmap(out);
    }
    EXPECT(status[0] == status[1]);
    return status[0];
}

/* Expects that these bytes are read, and neither with a byte behind them nor cut off anywhere. */
static void expect_whole(reader *read, struct bytes whole, void *stored, size_t size)
{
    EXPECT(read_guarded(read, joined(whole, repeated(0, 1)), stored, size) == SEC1_TRAILING_DATA);
    for (struct bytes cut = whole; cut.len-- > 0;)
        EXPECT(read_guarded(read, cut, stored, size) == SEC1_TRUNCATED);
    EXPECT(read(NULL, 0, stored) == SEC1_TRUNCATED);
    EXPECT(read_guarded(read, whole, stored, size) == SEC1_OK);
}

/* The status and the offset of the first fault, by one of the calls that tell both. */
static void expect_fault(uint32_t (*fault_at)(const uint8_t *, size_t, size_t *),
                         struct bytes input, uint32_t wanted, size_t wanted_offset)
{
    for (enum side side = AT_END; side <= AT_START; side++) {
        struct guarded in = map_input(input.data, input.len, side);
        size_t offset = 777777;
        EXPECT(fault_at(in.data, input.len, &offset) == wanted &&
               offset == (wanted ? wanted_offset : 777777));
        unmap(in);
    }
}

static uint32_t key_parts(const uint8_t *bytes, size_t bytes_len, void *stored)
{
    return sec1_key_read(bytes, bytes_len, stored);
}

static uint32_t read_key(struct bytes input, struct sec1_key_parts *parts)
{
    return read_guarded(key_parts, input, parts, sizeof *parts);
}

struct given {
    struct bytes private_key, curve, public_key;
    size_t has_public_key;
};

static struct given no_key;

/* The calls that take a struct do the same as those that take its members. */
static void expect_same_of(struct given key, size_t out_len, uint32_t status, size_t stored,
                           uint32_t only)
{
    static uint8_t out[4096];
    size_t len = 777777;
    struct sec1_key parts;
    memset(&parts, 0, sizeof parts);
    parts.private_key = key.private_key.data;
    parts.private_key_len = key.private_key.len;
    parts.curve = key.curve.data;
    parts.curve_len = key.curve.len;
    parts.public_key = key.public_key.data;
    parts.public_key_len = key.public_key.len;
    parts.has_public_key = key.has_public_key;
    EXPECT(sec1_key_len_of(&parts, &len) == only && len == stored);
    len = 777777;
    EXPECT(sec1_key_write_of(&parts, out, out_len, &len) == status && len == stored);
    uint32_t (*write)(const struct sec1_key *, uint8_t *, size_t, size_t *) = sec1_key_write_of;
    EXPECT(write(&parts, out, out_len, &len) == status);
}

/* Writes a key into a buffer of out_len bytes of the value EE. Returns the buffer's bytes in
 * out. */
static uint32_t write_key(struct given key, size_t out_len, struct bytes *out, size_t *len)
{
    uint32_t status[2];
    size_t stored[2] = {0};
    for (enum side side = AT_END; side <= AT_START; side++) {
        struct guarded private_key = map_input(key.private_key.data, key.private_key.len, side);
        struct guarded curve = map_input(key.curve.data, key.curve.len, side);
        struct guarded public_key = map_input(key.public_key.data, key.public_key.len, side);
        struct guarded buffer = map_guarded(out_len, side);
        memset(buffer.data, 0xEE, out_len);
        stored[side] = 777777;
        status[side] = sec1_key_write(private_key.data, key.private_key.len, curve.data,
                                      key.curve.len, public_key.data, key.public_key.len,
                                      key.has_public_key, buffer.data, out_len, &stored[side]);
        size_t only_len = 777777;
        uint32_t only_status =
            sec1_key_len(private_key.data, key.private_key.len, curve.data, key.curve.len,
                         public_key.data, key.public_key.len, key.has_public_key, &only_len);
        EXPECT(only_len == stored[side]);
        expect_same_of(key, out_len, status[side], stored[side], only_status);
        EXPECT(only_status == (status[side] == SEC1_BUFFER ? (uint32_t)SEC1_OK : status[side]));
        out->len = out_len;
        memcpy(out->data, buffer.data, out_len);
        unmap(private_key);
        unmap(curve);
        unmap(public_key);
        unmap(buffer);
    }
    EXPECT(status[0] == status[1] && stored[0] == stored[1]);
    *len = stored[0];
    return status[0];
}

/* A call that reads bytes and writes others into a buffer. */
typedef uint32_t (*converter)(const uint8_t *, size_t, uint8_t *, size_t, size_t *);

/* Converts at every length of the buffer, from 0 to three bytes more than are needed. */
static void expect_converted(converter convert, struct bytes input, struct bytes wanted)
{
    for (size_t room = 0; room <= wanted.len + 3; room++) {
        for (enum side side = AT_END; side <= AT_START; side++) {
            struct guarded in = map_input(input.data, input.len, side);
            struct guarded out = map_guarded(room, side);
            memset(out.data, 0xEE, room);
            size_t len = 777777;
            uint32_t status = convert(in.data, input.len, out.data, room, &len);
            EXPECT(len == wanted.len);
            if (room < wanted.len) {
                EXPECT(status == SEC1_BUFFER && all_are(out.data, room, 0xEE));
            } else {
                EXPECT(status == SEC1_OK && memcmp(out.data, wanted.data, wanted.len) == 0);
                EXPECT(all_are(out.data + wanted.len, room - wanted.len, 0xEE));
            }
            unmap(in);
            unmap(out);
        }
    }
}

/* Converts with room to spare, and expects a refusal that changes nothing. */
static void expect_refused(converter convert, struct bytes input, uint32_t wanted)
{
    for (enum side side = AT_END; side <= AT_START; side++) {
        struct guarded in = map_input(input.data, input.len, side);
        struct guarded out = map_guarded(200, side);
        memset(out.data, 0xEE, 200);
        size_t len = 777777;
        EXPECT(convert(in.data, input.len, out.data, 200, &len) == wanted);
        EXPECT(len == 777777 && all_are(out.data, 200, 0xEE));
        EXPECT(convert(in.data, input.len, NULL, 0, &len) == wanted && len == 777777);
        unmap(in);
        unmap(out);
    }
}

/* ---- the header */

/* The status is the number of bytes. */
static uint32_t status_to_text(const uint8_t *bytes, size_t bytes_len, uint8_t *out, size_t out_len,
                               size_t *len)
{
    (void)bytes;
    return sec1_status_to_text(bytes_len, (char *)out, out_len, len);
}

static void test_header(void)
{
    EXPECT(sizeof(struct sec1_part) == 3 * sizeof(size_t));
    EXPECT(offsetof(struct sec1_part, offset) == 0);
    EXPECT(offsetof(struct sec1_part, len) == sizeof(size_t));
    EXPECT(offsetof(struct sec1_part, present) == 2 * sizeof(size_t));
    EXPECT(sizeof(struct sec1_key_parts) == 9 * sizeof(size_t));
    EXPECT(offsetof(struct sec1_key_parts, private_key) == 0);
    EXPECT(offsetof(struct sec1_key_parts, curve) == 3 * sizeof(size_t));
    EXPECT(offsetof(struct sec1_key_parts, public_key) == 6 * sizeof(size_t));
    EXPECT(sizeof(struct sec1_public_key_parts) == 6 * sizeof(size_t));
    EXPECT(offsetof(struct sec1_public_key_parts, curve) == 0);
    EXPECT(offsetof(struct sec1_public_key_parts, public_key) == 3 * sizeof(size_t));
    EXPECT(sizeof(struct sec1_private_key_info_parts) == 6 * sizeof(size_t));
    EXPECT(offsetof(struct sec1_private_key_info_parts, curve) == 0);
    EXPECT(offsetof(struct sec1_private_key_info_parts, key) == 3 * sizeof(size_t));
    EXPECT(sizeof(struct sec1_signature_parts) == 6 * sizeof(size_t));
    EXPECT(offsetof(struct sec1_signature_parts, r) == 0);
    EXPECT(offsetof(struct sec1_signature_parts, s) == 3 * sizeof(size_t));
    EXPECT(sizeof(struct sec1_point_parts) == 7 * sizeof(size_t));
    EXPECT(offsetof(struct sec1_point_parts, tag) == 0);
    EXPECT(offsetof(struct sec1_point_parts, x) == sizeof(size_t));
    EXPECT(offsetof(struct sec1_point_parts, y) == 4 * sizeof(size_t));
    EXPECT(sizeof(size_t) == 8 && sizeof(void *) == 8);

    EXPECT(SEC1_OK == 0 && SEC1_TRUNCATED == 1 && SEC1_TAG == 2 && SEC1_LENGTH == 3);
    EXPECT(SEC1_TRAILING_DATA == 4 && SEC1_VALUE == 5 && SEC1_OVERLENGTH == 6 && SEC1_BUFFER == 7);
    EXPECT(SEC1_DEPTH == 8 && SEC1_POINT_ENCODING == 9 && SEC1_FIELD_LENGTH == 10 &&
           SEC1_CURVE == 11 && SEC1_OTHER_CURVE == 12 && SEC1_PEM == 13);
    EXPECT(SEC1_POINT_IDENTITY == 0);
    EXPECT(SEC1_POINT_COMPRESSED_EVEN == 2 && SEC1_POINT_COMPRESSED_ODD == 3);
    EXPECT(SEC1_POINT_UNCOMPRESSED == 4 && SEC1_POINT_COMPACT == 5);
    EXPECT(SEC1_POINT_HYBRID_EVEN == 6 && SEC1_POINT_HYBRID_ODD == 7);
    EXPECT(SEC1_IDENTIFIER_CONTENT_MAX == 39 && SEC1_IDENTIFIER_TEXT_MAX == 158 &&
           SEC1_IDENTIFIER_ARCS_MAX == 40 && SEC1_PUBLIC_KEY_MAX == 158);
    EXPECT(SEC1_POINT_MAX == 133 && SEC1_CURVE_NAME_MAX == 16 && SEC1_POINT_TEXT_MAX == 267);
    EXPECT(SEC1_STATUS_TEXT_MAX == 42);
    EXPECT(sec1_version() == SEC1_VERSION);

    static const char *const texts[] = {
        "ok",
        "input ends inside an element",
        "unexpected or unsupported tag",
        "length not in DER form or above the limit",
        "bytes after the value",
        "content not valid for its tag",
        "value longer than 268435455 bytes",
        "output buffer too small",
        "more than 64 nested elements",
        "elliptic curve point encoding error",
        "length of field elements not supported",
        "curve not in the table",
        "key and container name different curves",
        "no whole PEM block with this label",
        "unknown status",
        "unknown status",
    };
    for (uint32_t status = 0; status < 16; status++) {
        struct bytes ended = text_bytes(texts[status]);
        ended.len++;
        EXPECT(strcmp(sec1_status_text(status), texts[status]) == 0);
        EXPECT(ended.len <= SEC1_STATUS_TEXT_MAX);
        expect_converted(status_to_text, (struct bytes){.len = status}, ended);
    }
    EXPECT(strcmp(sec1_status_text(UINT32_MAX), "unknown status") == 0);
    struct bytes unknown = text_bytes("unknown status");
    char text[SEC1_STATUS_TEXT_MAX];
    size_t len;
    for (size_t number = 16; number; number *= 2) {
        EXPECT(sec1_status_to_text(number, text, sizeof text, &len) == SEC1_OK);
        EXPECT(len == unknown.len + 1 && memcmp(text, unknown.data, len) == 0);
    }
}

/* ---- keys */

static int is_part(struct sec1_part part, size_t offset, size_t len)
{
    return part.present == 1 && part.offset == offset && part.len == len;
}

static int is_absent(struct sec1_part part)
{
    return part.present == 0 && part.offset == 0 && part.len == 0;
}

/* Keys by their bytes, with the offset and the length of each part; an offset of 0 where it is
 * absent. */
static const struct accepted {
    const char *key;
    size_t private_offset, private_len, curve_offset, curve_len, public_offset, public_len;
} accepted_keys[] = {
    {WHOLE_KEY, 7, 32, 43, 8, 56, 65},
    {"306B020101" "0420" PRIVATE "A144034200" "04" X Y, 7, 32, 0, 0, 44, 65},
    {"30050201010400", 7, 0, 0, 0, 0, 0},
    {"300A0201010400A103030100", 7, 0, 0, 0, 12, 0},
    {"300F0201010400A00806062A8FFFFFFF7F", 7, 0, 11, 6, 0, 0},
    {"300E0201010400A00706052B81040022", 7, 0, 11, 5, 0, 0},
    {"300B0201010400A00406022A03", 7, 0, 11, 2, 0, 0},
    {"30100201010400A00406022A03A103030100", 7, 0, 11, 2, 18, 0},
    {"30100201010400A00406022A03A103030100", 7, 0, 11, 2, 18, 0},
    {"3006020101040155", 7, 1, 0, 0, 0, 0},
};

static void test_accepted_keys(void)
{
    for (size_t i = 0; i < sizeof accepted_keys / sizeof *accepted_keys; i++) {
        struct accepted a = accepted_keys[i];
        struct bytes key = unhex(a.key);
        struct sec1_key_parts parts;
        EXPECT(read_key(key, &parts) == SEC1_OK);
        EXPECT(is_part(parts.private_key, a.private_offset, a.private_len));
        EXPECT(a.curve_offset ? is_part(parts.curve, a.curve_offset, a.curve_len)
                              : is_absent(parts.curve));
        EXPECT(a.public_offset ? is_part(parts.public_key, a.public_offset, a.public_len)
                               : is_absent(parts.public_key));

        struct given given = no_key;
        given.private_key.len = a.private_len;
        memcpy(given.private_key.data, key.data + a.private_offset, a.private_len);
        given.curve.len = a.curve_len;
        memcpy(given.curve.data, key.data + a.curve_offset, a.curve_len);
        given.public_key.len = a.public_len;
        memcpy(given.public_key.data, key.data + a.public_offset, a.public_len);
        given.has_public_key = a.public_offset ? (i % 3 == 0 ? 1 : i % 3 == 1 ? 256 : SIZE_MAX) : 0;
        for (size_t room = 0; room <= key.len + 3; room++) {
            struct bytes out;
            size_t len;
            uint32_t status = write_key(given, room, &out, &len);
            EXPECT(len == key.len);
            if (room < key.len) {
                EXPECT(status == SEC1_BUFFER && all_are(out.data, room, 0xEE));
            } else {
                EXPECT(status == SEC1_OK && memcmp(out.data, key.data, key.len) == 0);
                EXPECT(all_are(out.data + key.len, room - key.len, 0xEE));
            }
        }
    }
}

static const struct refused {
    const char *bytes;
    uint32_t status;
} refused_keys[] = {
    {"3081050201010400", SEC1_LENGTH},
    {"30800201010400" "0000", SEC1_LENGTH},
    {"3006020200010400", SEC1_VALUE},
    {"3003020102", SEC1_VALUE},
    {"300402000400", SEC1_VALUE},
    {"3003020101", SEC1_TRUNCATED},
    {"3180", SEC1_TAG},
    {"300B0201010400A10403020100", SEC1_VALUE},
    {"30110201010400A00406022A03A00406022A03", SEC1_TRAILING_DATA},
    {"30100201010400A103030100A00406022A03", SEC1_TRAILING_DATA},
    {"300702010104000500", SEC1_TRAILING_DATA},
    {"30090201010400A0023000", SEC1_TAG},
    {"30090201010400A0020500", SEC1_TAG},
    {"300F0201010400A00806062A9080808000", SEC1_VALUE},
    {"300C0201010400A00506032A8001", SEC1_VALUE},
    {"", SEC1_TRUNCATED},
    {"30", SEC1_TRUNCATED},
    {"00", SEC1_TAG},
};

static void test_refused_keys(void)
{
    struct sec1_key_parts parts;
    for (size_t i = 0; i < sizeof refused_keys / sizeof *refused_keys; i++)
        EXPECT(read_key(unhex(refused_keys[i].bytes), &parts) == refused_keys[i].status);

    expect_whole(key_parts, unhex(WHOLE_KEY), &parts, sizeof parts);
}

static void test_written_keys(void)
{
    struct bytes out;
    size_t len;
    struct given key = no_key;

    /* a private key of 122 bytes has a short length around it, and one of 123 a long one */
    key.private_key = repeated(0, 122);
    EXPECT(write_key(key, 200, &out, &len) == SEC1_OK && len == 129);
    EXPECT(memcmp(out.data, unhex("307F020101047A").data, 7) == 0 && all_are(out.data + 7, 122, 0));
    key.private_key = repeated(0, 123);
    EXPECT(write_key(key, 200, &out, &len) == SEC1_OK && len == 131);
    EXPECT(memcmp(out.data, unhex("308180020101047B").data, 8) == 0 &&
           all_are(out.data + 8, 123, 0));

    /* the buffer keeps what is behind the key */
    key = no_key;
    EXPECT(write_key(key, 9, &out, &len) == SEC1_OK && len == 7);
    EXPECT(memcmp(out.data, unhex("30050201010400EEEE").data, 9) == 0);

    /* the number 0 says that there is no public key, whatever its bytes are */
    key.public_key = repeated(7, 3);
    EXPECT(write_key(key, 9, &out, &len) == SEC1_OK && len == 7);

    /* a content that is no identifier's */
    static const char *const no_curves[] = {"80", "2A80", "2A8001", "2A9080808000", "AA"};
    for (size_t i = 0; i < sizeof no_curves / sizeof *no_curves; i++) {
        key = no_key;
        key.curve = unhex(no_curves[i]);
        EXPECT(write_key(key, 200, &out, &len) == SEC1_VALUE && len == 777777 &&
               all_are(out.data, 200, 0xEE));
    }
    key.curve = repeated(1, 40);
    EXPECT(write_key(key, 200, &out, &len) == SEC1_VALUE && len == 777777);
    key.curve = repeated(1, 39);
    EXPECT(write_key(key, 200, &out, &len) == SEC1_OK && len == 5 + 2 + 2 + 2 + 39);

    size_t found = 777777;
    EXPECT(sec1_key_write(NULL, 0, NULL, 0, NULL, 0, 0, NULL, 0, &found) == SEC1_BUFFER &&
           found == 7);
    EXPECT(sec1_key_len(NULL, 0, NULL, 0, NULL, 0, 1, &found) == SEC1_OK && found == 12);
}

/* Parts at the limit of 268,435,455 bytes of a content. Nothing is read of them where only the
 * length is asked. */
static void test_long_keys(void)
{
    size_t size = (size_t)1 << 28;
    uint8_t *zeros =
        mmap(NULL, size + 16, PROT_READ, MAP_PRIVATE | MAP_ANONYMOUS | MAP_NORESERVE, -1, 0);
    if (zeros == MAP_FAILED) {
        perror("mmap");
        exit(2);
    }
    size_t len = 777777;
    uint8_t out[16];
    memset(out, 0xEE, sizeof out);
    EXPECT(sec1_key_len(zeros, 268435446, NULL, 0, NULL, 0, 0, &len) == SEC1_OK &&
           len == 268435461);
    EXPECT(sec1_key_write(zeros, 268435446, NULL, 0, NULL, 0, 0, out, 16, &len) == SEC1_BUFFER &&
           len == 268435461);
    len = 777777;
    EXPECT(sec1_key_len(zeros, 268435447, NULL, 0, NULL, 0, 0, &len) == SEC1_OVERLENGTH &&
           len == 777777);
    EXPECT(sec1_key_len(zeros, size, NULL, 0, NULL, 0, 0, &len) == SEC1_OVERLENGTH &&
           len == 777777);
    EXPECT(sec1_key_len(NULL, 0, NULL, 0, zeros, 268435430, 1, &len) == SEC1_OK &&
           len == 268435454);
    EXPECT(sec1_key_len(NULL, 0, NULL, 0, zeros, 268435437, 1, &len) == SEC1_OK &&
           len == 268435461);
    len = 777777;
    EXPECT(sec1_key_len(NULL, 0, NULL, 0, zeros, 268435438, 1, &len) == SEC1_OVERLENGTH &&
           len == 777777);
    EXPECT(sec1_key_len(NULL, 0, NULL, 0, zeros, size, 1, &len) == SEC1_OVERLENGTH &&
           len == 777777);
    EXPECT(sec1_key_write(zeros, size, NULL, 0, zeros, size, 1, out, 16, &len) == SEC1_OVERLENGTH &&
           len == 777777);
    EXPECT(all_are(out, 16, 0xEE));
    munmap(zeros, size + 16);
}

/* ---- public keys */

static uint32_t public_key_parts(const uint8_t *bytes, size_t bytes_len, void *stored)
{
    return sec1_public_key_read(bytes, bytes_len, stored);
}

static uint32_t read_public_key(struct bytes input, struct sec1_public_key_parts *parts)
{
    return read_guarded(public_key_parts, input, parts, sizeof *parts);
}

#define EC_KEY "06072A8648CE3D0201"
#define ON_P256 "3013" EC_KEY "06082A8648CE3D030107"
#define P521_POINT                                                                                 \
    "04019E6506DFDFCE91794A56A2BF91BC337769ED96013D8F790448557068A14FB2C5055EF690E8B8AFF28F6686E9" \
    "9D794455248F6E86DFF5FD34E45A0FA32913061CF9014E2673AF92BEA9CA0E035D0EDE8021BE953550E46CF1B8F5" \
    "9AB23C392CBCBBE5253011331D53A4FECFB4E31762F1152F9D65273B09D1C7AB73ABAFA32AD86B3605"

/* What `openssl ec -pubout` of OpenSSL 3.0 writes of the key above, in each form of the point, and
 * of keys on other curves. */
static const struct public_key {
    const char *bytes;
    size_t curve_at, curve_len, key_at, key_len;
} public_keys[] = {
    {"3059" ON_P256 "03420004" X Y, 15, 8, 26, 65},
    {"3039" ON_P256 "03220003" X, 15, 8, 26, 33},
    {"3059" ON_P256 "03420007" X Y, 15, 8, 26, 65},
    {"30819B3010" EC_KEY "06052B81040023" "03818600" P521_POINT, 16, 5, 25, 133},
    {"30563010" EC_KEY "06052B8104000A"
     "03420004D190D497D2A79A4FAA101E3EA5514AD4ABD6052716C555D1D40BF0C94A69BE56"
     "1DEDEC4DBBDE0922A65CF152841ABA263B0EF68649FF80D75C7800B2F3B457F0", 15, 5, 23, 65},
    {"306A3014" EC_KEY "06092B2403030208010109"
     "03520004931C9E7936E1D183FC98210898EEDDF0DECC2FA43A81232B284124240F574C84AEA50AA905F2A5D5"
     "3CE93E50B9E2B1C062A28289065FDE87CE5976653C812E5449FCA1710929925A31D9EE3DFEA667C8",
     15, 9, 27, 81},
    {"30323010" EC_KEY "06052B81040006"
     "031E0004AA8DB83E5B08A7CB99F9BBCB08B578656E2DE9814F2134985DFD16E4", 15, 5, 23, 29},
};

/* Keys that OpenSSL writes on a curve over a binary field, on one by its parameters, for Ed25519,
 * X25519 and RSA; and, by hand, for id-ecDH (RFC 5480 section 2.1.2), with no parameters, with
 * NULL, keys that are no points, and records that aren't in DER. */
static const struct no_public_key {
    const char *bytes;
    uint32_t status;
} no_public_keys[] = {
    {"30403010" EC_KEY "06052B81040001"
     "032C000407A6E2883CA7910E92DA6E75EF0C4A4CD52AFC74D4017219FE8147237B8AD83F992160A5107756152A4D",
     SEC1_CURVE},
    {"3082014B30820103" EC_KEY "3081F7020101302C06072A8648CE3D0101022100FFFFFFFF00000001"
     "000000000000000000000000FFFFFFFFFFFFFFFFFFFFFFFF305B0420FFFFFFFF00000001000000000000"
     "000000000000FFFFFFFFFFFFFFFFFFFFFFFC04205AC635D8AA3A93E7B3EBBD55769886BC651D06B0CC53"
     "B0F63BCE3C3E27D2604B031500C49D360886E704936A6678E1139D26B7819F7E900441046B17D1F2E12C"
     "4247F8BCE6E563A440F277037D812DEB33A0F4A13945D898C2964FE342E2FE1A7F9B8EE7EB4A7C0F9E16"
     "2BCE33576B315ECECBB6406837BF51F5022100FFFFFFFF00000000FFFFFFFFFFFFFFFFBCE6FAADA7179E"
     "84F3B9CAC2FC632551020101" "03420004" X Y, SEC1_CURVE},
    {"302A300506032B6570032100FE521583BBAB274CC8D7643AB06061FC94417696801C8B8DACCBDD4EBFC54688",
     SEC1_CURVE},
    {"302A300506032B656E03210072836C3B7E257883ACBBBDB56E378367B05DAF77EEBBB99487AE97180B052B5E",
     SEC1_CURVE},
    {"305C300D06092A864886F70D0101010500034B003048024100AA0A734FF86335795DBD4D9F04CE1C2A4A91A765"
     "26DA30120248E40B29D53DD32521224FA531DAD3513158DBD6E608E3B78862139BB352706C625F93CDBAAB65"
     "0203010001", SEC1_CURVE},
    {"30573011" "06052B8104010C" "06082A8648CE3D030107" "03420004" X Y, SEC1_CURVE},
    {"304F3009" EC_KEY "03420004" X Y, SEC1_CURVE},
    {"3051300B" EC_KEY "0500" "03420004" X Y, SEC1_CURVE},
    /* an identifier of 40 bytes, and one with the arc 2^32; parameters that aren't DER inside, and
     * a byte that is no tag in their place */
    {"3030302A0628" "2A0101010101010101010101010101010101010101010101010101010101010101010101"
     "01010101" "03020000", SEC1_CURVE},
    {"300E3008" "06062A9080808000" "03020000", SEC1_CURVE},
    {"3052300C" EC_KEY "050100" "03420004" X Y, SEC1_CURVE},
    {"3050300A" EC_KEY "00" "03420004" X Y, SEC1_TRAILING_DATA},
    {"3018" ON_P256 "030100", SEC1_POINT_ENCODING},
    {"3059" ON_P256 "03420005" X Y, SEC1_POINT_ENCODING},
    {"3059" ON_P256 "03420006" X Y, SEC1_POINT_ENCODING},
    {"3058" ON_P256 "0341" "00" X Y, SEC1_POINT_ENCODING},
    {"3038" ON_P256 "0321" "00" X, SEC1_POINT_ENCODING},
    {"3038" ON_P256 "0321" "01" X, SEC1_VALUE},
    {"301A" ON_P256 "0303010500", SEC1_POINT_ENCODING},
    {"3019" ON_P256 "03020800", SEC1_VALUE},
    {"3017" ON_P256 "0300", SEC1_VALUE},
    {"3059" ON_P256 "04420004" X Y, SEC1_TAG},
    {"3159" ON_P256 "03420004" X Y, SEC1_TAG},
    {"308159" ON_P256 "03420004" X Y, SEC1_LENGTH},
    {"3059" ON_P256 "03420004" X Y "00", SEC1_TRAILING_DATA},
    {"305A" ON_P256 "03420004" X Y "00", SEC1_TRAILING_DATA},
    {"302B300506032B6570032100FE521583BBAB274CC8D7643AB06061FC94417696801C8B8DACCBDD4EBFC5468800",
     SEC1_TRAILING_DATA},
    {"", SEC1_TRUNCATED},
};

static void test_public_keys(void)
{
    struct sec1_public_key_parts p;
    for (size_t i = 0; i < sizeof public_keys / sizeof *public_keys; i++) {
        const struct public_key *k = &public_keys[i];
        expect_whole(public_key_parts, unhex(k->bytes), &p, sizeof p);
        EXPECT(is_part(p.curve, k->curve_at, k->curve_len));
        EXPECT(is_part(p.public_key, k->key_at, k->key_len));
    }
    EXPECT(read_public_key(unhex("3019" ON_P256 "03020000"), &p) == SEC1_OK &&
           p.public_key.offset == 26 && p.public_key.len == 1);
    for (size_t i = 0; i < sizeof no_public_keys / sizeof *no_public_keys; i++)
        EXPECT(read_public_key(unhex(no_public_keys[i].bytes), &p) == no_public_keys[i].status);
}

/* The number of the bytes that are the curve; the others are the key. */
static size_t curve_len;

static uint32_t write_public_key(const uint8_t *bytes, size_t bytes_len, uint8_t *out,
                                 size_t out_len, size_t *len)
{
    return sec1_public_key_write(bytes, curve_len, bytes + curve_len, bytes_len - curve_len, out,
                                 out_len, len);
}

static void test_written_public_keys(void)
{
    for (size_t i = 0; i < sizeof public_keys / sizeof *public_keys; i++) {
        const struct public_key *k = &public_keys[i];
        struct bytes bytes = unhex(k->bytes), parts = {0};
        memcpy(parts.data, bytes.data + k->curve_at, k->curve_len);
        memcpy(parts.data + k->curve_len, bytes.data + k->key_at, k->key_len);
        parts.len = k->curve_len + k->key_len;
        curve_len = k->curve_len;
        expect_converted(write_public_key, parts, bytes);
    }
    static const struct {
        const char *curve, *key;
        uint32_t status;
    } refused[] = {
        {"2A8648CE3D030108", "04" X Y, SEC1_CURVE},
        {"2A8648CE3D0201", "04" X Y, SEC1_CURVE},
        {"", "04" X Y, SEC1_CURVE},
        {"2A8648CE3D030107", "", SEC1_POINT_ENCODING},
        {"2A8648CE3D030107", "04" X, SEC1_POINT_ENCODING},
        {"2A8648CE3D030107", "01" X, SEC1_POINT_ENCODING},
        {"2A8648CE3D030107", "06" X Y, SEC1_POINT_ENCODING},
        {"2B81040022", "04" X Y, SEC1_POINT_ENCODING},
    };
    for (size_t i = 0; i < sizeof refused / sizeof *refused; i++) {
        struct bytes curve = unhex(refused[i].curve);
        curve_len = curve.len;
        expect_refused(write_public_key, joined(curve, unhex(refused[i].key)), refused[i].status);
    }
    /* the longest, of a curve of 64 bytes with an identifier of 9 */
    struct bytes longest = unhex("2B2403030208010104"), out;
    size_t len;
    longest.data[8] = 13;
    EXPECT(sec1_public_key_write(longest.data, 9, joined(unhex("04"), repeated(1, 128)).data, 129,
                                 out.data, SEC1_PUBLIC_KEY_MAX, &len) == SEC1_OK &&
           len == SEC1_PUBLIC_KEY_MAX);
}

/* ---- private keys in their containers */

static uint32_t container_parts(const uint8_t *bytes, size_t bytes_len, void *stored)
{
    return sec1_private_key_info_read(bytes, bytes_len, stored);
}

static uint32_t read_container(struct bytes input, struct sec1_private_key_info_parts *parts)
{
    return read_guarded(container_parts, input, parts, sizeof *parts);
}

#define KEY_INSIDE "306B020101" "0420" PRIVATE "A144034200" "04" X Y
#define ATTRIBUTE "300706032A03043100"
#define OTHER_ATTRIBUTE "300906032A030431020500"

/* What `openssl pkcs8 -topk8 -nocrypt` of OpenSSL 3.0 writes of the key above, and by hand: the
 * same in version 1, and containers of either version with attributes and public keys (RFC 5958
 * section 2), whose private keys aren't examined. */
static const struct container {
    const char *bytes;
    size_t curve_at, curve_len, key_at, key_len;
} containers[] = {
    {"308187" "020100" ON_P256 "046D" KEY_INSIDE, 19, 8, 29, 109},
    {"308187" "020101" ON_P256 "046D" KEY_INSIDE, 19, 8, 29, 109},
    {"301A" "020100" ON_P256 "0400", 18, 8, 28, 0},
    {"301C" "020100" ON_P256 "0400" "A000", 18, 8, 28, 0},
    {"3032" "020100" ON_P256 "0402ABCD" "A014" ATTRIBUTE OTHER_ATTRIBUTE, 18, 8, 28, 2},
    {"3060" "020101" ON_P256 "0402ABCD" "8142" "0004" X Y, 18, 8, 28, 2},
    {"302A" "020101" ON_P256 "0402ABCD" "A009" ATTRIBUTE "810100", 18, 8, 28, 2},
    {"3020" "020101" ON_P256 "0402ABCD" "81020380", 18, 8, 28, 2},
    {"3019" "020100" "3010" EC_KEY "06052B81040023" "0402ABCD", 18, 5, 25, 2},
    {"3022" "020101" "3014" EC_KEY "06092B2403030208010109" "0402ABCD" "A000" "810100",
     18, 9, 29, 2},
};

/* Other versions, faults of each version behind it, a container of OpenSSL for Ed25519, and, by
 * hand, other algorithms. */
static const struct no_container {
    const char *bytes;
    uint32_t status;
} no_containers[] = {
    {"308187" "020102" ON_P256 "046D" KEY_INSIDE, SEC1_VALUE},
    {"308187" "0201FF" ON_P256 "046D" KEY_INSIDE, SEC1_VALUE},
    {"308188" "02020001" ON_P256 "046D" KEY_INSIDE, SEC1_VALUE},
    {"308186" "0200" ON_P256 "046D" KEY_INSIDE, SEC1_VALUE},
    {"308187" "030100" ON_P256 "046D" KEY_INSIDE, SEC1_TAG},
    {"3005" "020102" "0500", SEC1_VALUE},
    {"3005" "020100" "0500", SEC1_TAG},
    {"3005" "020101" "0500", SEC1_TAG},
    {"301D" "020100" ON_P256 "0400" "810100", SEC1_TRAILING_DATA},
    {"301F" "020101" ON_P256 "0400" "810100" "A000", SEC1_TRAILING_DATA},
    {"301C" "020101" ON_P256 "0400" "8100", SEC1_VALUE},
    {"301E" "020101" ON_P256 "0400" "81020181", SEC1_VALUE},
    {"301F" "020101" ON_P256 "0400" "A103810100", SEC1_TRAILING_DATA},
    {"3030" "020100" ON_P256 "0400" "A014" OTHER_ATTRIBUTE ATTRIBUTE, SEC1_VALUE},
    {"3030" "020101" ON_P256 "0400" "A014" OTHER_ATTRIBUTE ATTRIBUTE, SEC1_VALUE},
    {"301E" "020100" ON_P256 "0400" "A0020500", SEC1_TAG},
    {"301A" "020100" ON_P256 "0300", SEC1_TAG},
    {"3018" "020100" ON_P256, SEC1_TRUNCATED},
    {"301A" "020100" ON_P256 "0401", SEC1_TRUNCATED},
    {"301B" "020100" "3014" EC_KEY "06082A8648CE3D030107" "00" "0400", SEC1_TRAILING_DATA},
    {"30820087" "020100" ON_P256 "046D" KEY_INSIDE, SEC1_LENGTH},
    {"300E" "020100" "3007" "06052B81040023" "0400", SEC1_CURVE},
    {"3010" "020100" "3009" EC_KEY "0400", SEC1_CURVE},
    {"3012" "020100" "300B" EC_KEY "0500" "0400", SEC1_CURVE},
    {"3017" "020101" "3010" EC_KEY "06052B81040001" "0400", SEC1_CURVE},
    {"3018" "020100" "3011" "06052B8104010C" "06082A8648CE3D030107" "0400", SEC1_CURVE},
    {"302E020100300506032B6570042204205726D726BB487095B7194E8B12FDF612B2A84461C2693FF919B240B12121"
     "454D", SEC1_CURVE},
    {KEY_INSIDE, SEC1_TAG},
    {"", SEC1_TRUNCATED},
};

static void test_containers(void)
{
    struct sec1_private_key_info_parts p;
    struct sec1_key_parts inside;
    for (size_t i = 0; i < sizeof containers / sizeof *containers; i++) {
        const struct container *c = &containers[i];
        expect_whole(container_parts, unhex(c->bytes), &p, sizeof p);
        EXPECT(is_part(p.curve, c->curve_at, c->curve_len));
        EXPECT(is_part(p.key, c->key_at, c->key_len));
    }
    for (size_t i = 0; i < sizeof no_containers / sizeof *no_containers; i++)
        EXPECT(read_container(unhex(no_containers[i].bytes), &p) == no_containers[i].status);

    /* an attribute whose set of values holds a byte that is no element */
    EXPECT(read_container(unhex("3028020100" "301306072A8648CE3D020106082A8648CE3D030107"
                                "0404AABBCCDD" "A008300606012A3101FF"), &p) == SEC1_OK);

    struct bytes bytes = unhex(containers[0].bytes);
    EXPECT(read_container(bytes, &p) == SEC1_OK &&
           sec1_key_read(bytes.data + p.key.offset, p.key.len, &inside) == SEC1_OK);
    EXPECT(is_part(inside.private_key, 7, 32) && is_absent(inside.curve) &&
           is_part(inside.public_key, 44, 65));
}

/* ---- private keys in either form */

static uint32_t any_key_parts(const uint8_t *bytes, size_t bytes_len, void *stored)
{
    return sec1_private_key_read(bytes, bytes_len, stored);
}

#define OTHER_INSIDE "3031020101" "0420" PRIVATE "A00A06082A8648CE3D030102"
#define SAME_INSIDE "3031020101" "0420" PRIVATE "A00A06082A8648CE3D030107"

/* Keys by themselves and in containers, of which some are by hand; the places of the private key,
 * of the curve and of the public key, or 0 for none. */
static const struct any_key {
    const char *bytes;
    size_t key_at, curve_at, curve_len, public_at, public_len;
} any_keys[] = {
    {WHOLE_KEY, 7, 43, 8, 56, 65},
    {"3025020101" "0420" PRIVATE, 7, 0, 0, 0, 0},
    {"302B020101" "0420" PRIVATE "A00406022A03", 7, 43, 2, 0, 0},
    {"308187" "020100" ON_P256 "046D" KEY_INSIDE, 36, 19, 8, 73, 65},
    {"308187" "020101" ON_P256 "046D" KEY_INSIDE, 36, 19, 8, 73, 65},
    {"304D" "020100" ON_P256 "0433" SAME_INSIDE, 35, 18, 8, 0, 0},
};

/* Others, and where they are refused. */
static const struct no_key {
    const char *bytes;
    uint32_t status;
    size_t offset;
} no_any_keys[] = {
    {"304D" "020100" ON_P256 "0433" OTHER_INSIDE, SEC1_OTHER_CURVE, 71},
    {"304D" "020101" ON_P256 "0433" OTHER_INSIDE, SEC1_OTHER_CURVE, 71},
    {"3022" "020100" ON_P256 "0408" "3005020101040000", SEC1_TRAILING_DATA, 35},
    {"3021" "020100" ON_P256 "0407" "30050201010300", SEC1_TAG, 33},
    {"3021" "020100" ON_P256 "0407" "30050201020400", SEC1_VALUE, 32},
    {"301C" "020100" ON_P256 "0402" "3005", SEC1_TRUNCATED, 29},
    {"3016" "020100" "300B" EC_KEY "0500" "0404" "05000000", SEC1_CURVE, 5},
    {"3021" "020100" ON_P256 "0407" "30050201010400" "00", SEC1_TRAILING_DATA, 35},
    {"3021" "020100" ON_P256 "8407" "30050201010400", SEC1_TAG, 26},
    {"3025020102" "0420" PRIVATE, SEC1_VALUE, 4},
    {"3025020100" "0420" PRIVATE, SEC1_VALUE, 4},
    {"3018" "020102" ON_P256, SEC1_VALUE, 4},
    {"3007" "020101" "30020500", SEC1_TAG, 7},
    {"3005" "020101" "0500", SEC1_TAG, 5},
    {"3003" "020101", SEC1_TRUNCATED, 5},
    {"3105" "020101" "3000", SEC1_TAG, 0},
    {"3000", SEC1_TRUNCATED, 2},
    {"", SEC1_TRUNCATED, 0},
};

static void test_any_keys(void)
{
    struct sec1_key_parts p;
    for (size_t i = 0; i < sizeof any_keys / sizeof *any_keys; i++) {
        const struct any_key *k = &any_keys[i];
        expect_whole(any_key_parts, unhex(k->bytes), &p, sizeof p);
        expect_fault(sec1_private_key_fault_at, unhex(k->bytes), SEC1_OK, 0);
        EXPECT(is_part(p.private_key, k->key_at, 32));
        EXPECT(k->curve_len ? is_part(p.curve, k->curve_at, k->curve_len) : is_absent(p.curve));
        EXPECT(k->public_len ? is_part(p.public_key, k->public_at, k->public_len)
                             : is_absent(p.public_key));
    }
    for (size_t i = 0; i < sizeof no_any_keys / sizeof *no_any_keys; i++) {
        struct bytes bytes = unhex(no_any_keys[i].bytes);
        EXPECT(read_guarded(any_key_parts, bytes, &p, sizeof p) == no_any_keys[i].status);
        expect_fault(sec1_private_key_fault_at, bytes, no_any_keys[i].status,
                     no_any_keys[i].offset);
    }
    size_t offset = 777777;
    EXPECT(sec1_private_key_fault_at(NULL, 0, &offset) == SEC1_TRUNCATED && offset == 0);
}

/* The private key is PRIVATE; the bytes are the public key, and there is none of no bytes. */
static uint32_t write_container(const uint8_t *bytes, size_t bytes_len, uint8_t *out,
                                size_t out_len, size_t *len)
{
    struct bytes private_key = unhex(PRIVATE), curve = unhex("2A8648CE3D030107");
    return sec1_private_key_info_write(private_key.data, private_key.len, curve.data, curve_len,
                                       bytes, bytes_len, bytes_len > 0, out, out_len, len);
}

static void test_written_containers(void)
{
    curve_len = 8;
    expect_converted(write_container, unhex("04" X Y), unhex(containers[0].bytes));
    expect_converted(write_container, unhex(""),
                     unhex("3041" "020100" ON_P256 "0427" "3025020101" "0420" PRIVATE));
    for (curve_len = 0; curve_len < 8; curve_len++)
        expect_refused(write_container, unhex("04" X Y), SEC1_CURVE);

    size_t size = (size_t)1 << 28, len = 777777;
    uint8_t out[8], curve[] = {0x2B, 0x81, 0x04, 0x00, 0x23};
    uint8_t *zeros =
        mmap(NULL, size, PROT_READ, MAP_PRIVATE | MAP_ANONYMOUS | MAP_NORESERVE, -1, 0);
    if (zeros == MAP_FAILED) {
        perror("mmap");
        exit(2);
    }
    /* a key of version 1 around size - 50 bytes, and headers of 6 bytes in front of each of them */
    size_t key = 6 + 3 + 6 + (size - 50), whole = 3 + 18 + 6 + key;
    EXPECT(sec1_private_key_info_write(zeros, size - 50, curve, 5, NULL, 0, 0, out, 8, &len) ==
               SEC1_BUFFER &&
           len == 6 + whole && whole == size - 8);
    EXPECT(sec1_private_key_info_write(zeros, size - 43, curve, 5, NULL, 0, 0, out, 8, &len) ==
               SEC1_BUFFER &&
           len == size - 1 + 6);
    len = 777777;
    EXPECT(sec1_private_key_info_write(zeros, size - 42, curve, 5, NULL, 0, 0, out, 8, &len) ==
               SEC1_OVERLENGTH &&
           len == 777777);
    EXPECT(sec1_private_key_info_write(zeros, size, curve, 5, NULL, 0, 0, out, 8, &len) ==
               SEC1_OVERLENGTH &&
           len == 777777);
    munmap(zeros, size);
}

/* ---- certificates */

static uint32_t key_place(const uint8_t *bytes, size_t bytes_len, void *stored)
{
    return sec1_certificate_read_public_key(bytes, bytes_len, stored);
}

static uint32_t find_key(struct bytes input, struct sec1_part *part)
{
    return read_guarded(key_place, input, part, sizeof *part);
}

/* What `openssl req -x509` of OpenSSL 3.0 writes of the key above, and `openssl x509 -req -signkey`
 * of a key for Ed25519: a certificate of version 3 with extensions, and one of version 1 with the
 * serial number -1, which is valid until 2054. */
#define OF_VERSION_3                                                                               \
    "3082015B30820100A003020102020107300A06082A8648CE3D040302300C310A300806035504030C0161301E"     \
    "170D3236313132343132313035345A170D3236313132353132313035345A300C310A300806035504030C0161"     \
    "3059301306072A8648CE3D020106082A8648CE3D03010703420004" X Y                                   \
    "A3533051301D0603551D0E041604148D07D84F5A4E486A0961F8F8802581615B309780301F0603551D230418"     \
    "301680148D07D84F5A4E486A0961F8F8802581615B309780300F0603551D130101FF040530030101FF300A06"     \
    "082A8648CE3D0403020349003046022100A9D8F6323D5ED1D41FE8D1B692D25E6B9CF5EDF8968EF0D737B040"     \
    "A98DB58B7B022100A5B5B9E0076C91CD2C5400FB7BD55B292F55184EEA0015D48F0A0460D79E76D8"
#define OF_VERSION_1                                                                               \
    "3081C030740201FF300506032B6570300C310A300806035504030C01623020170D3236313132343132313035"     \
    "345A180F32303534303431313132313035345A300C310A300806035504030C0162302A300506032B65700321"     \
    "009712BFF712C7B7FE15B42327091D590F99237BE66FB98FF46760DFDDCCA4717A300506032B6570034100D5"     \
    "F3C6A428D64E827006EFB5DFB22E1FE7227B0929813977D73F8A2AEF5DE233F207AC87EAF339EA1C8B2DEC2B"     \
    "DC5D83E7712D7414F78F0D8DF767A90F686205"

/* Another byte at a place of one of them, the status of what is then found there, and where it is
 * refused: by its tag, by its length, or by its content. */
static const struct other_byte {
    size_t at;
    uint8_t byte;
    uint32_t status;
    size_t offset;
} in_version_3[] = {
    {2, 0x00, SEC1_LENGTH, 1}, /* the length of the whole */
    {12, 0x00, SEC1_VALUE, 12}, /* version 1, which is the default and isn't written */
    {12, 0x03, SEC1_VALUE, 12}, /* version 4 */
    {18, 0x02, SEC1_TAG, 18},   /* the tag of an algorithm's identifier */
    {27, 0x82, SEC1_VALUE, 20}, /* the last byte of this identifier */
    {30, 0x30, SEC1_TAG, 30},   /* the tag of a SET in a name */
    {39, 0x1F, SEC1_TAG, 39},   /* the tag of a value in a name */
    {46, 0x3A, SEC1_VALUE, 46}, /* a digit of a time */
    {88, 0x31, SEC1_TAG, 88},   /* the tag of the SubjectPublicKeyInfo */
    {109, 0x08, SEC1_OK, 0},    /* the curve, by which a key isn't refused here */
    {113, 0x01, SEC1_VALUE, 113}, /* unused bits of the key */
    {179, 0x82, SEC1_VALUE, 181}, /* a unique identifier with 48 unused bits */
    {179, 0xA4, SEC1_TRAILING_DATA, 179}, /* a field that there isn't */
    {256, 0x00, SEC1_VALUE, 256}, /* FALSE, which is the default and isn't written */
    {264, 0x05, SEC1_TAG, 264},   /* the tag of the signature's algorithm */
    {275, 0x80, SEC1_VALUE, 268}, /* the last byte of its identifier */
    {278, 0x08, SEC1_VALUE, 278}, /* unused bits of the signature */
}, in_version_1[] = {
    {6, 0x02, SEC1_TAG, 9},     /* a serial number of two bytes */
    {46, 0x17, SEC1_VALUE, 48}, /* the tag of a UTCTime for a GeneralizedTime */
    {60, 0x2E, SEC1_VALUE, 48}, /* a fraction of a second */
    {77, 0xA0, SEC1_TAG, 77},   /* the version behind names */
    {121, 0x83, SEC1_TAG, 121}, /* a field that there isn't */
};

static void expect_certificate(struct bytes certificate, size_t info_at, size_t info_len,
                               const struct other_byte *others, size_t count)
{
    struct sec1_part part;
    expect_whole(key_place, certificate, &part, sizeof part);
    EXPECT(is_part(part, info_at, info_len));
    expect_fault(sec1_certificate_fault_at, certificate, SEC1_OK, 0);
    expect_fault(sec1_certificate_fault_at, joined(certificate, repeated(0, 1)),
                 SEC1_TRAILING_DATA, certificate.len);
    for (size_t i = 0; i < count; i++) {
        struct bytes other = certificate;
        other.data[others[i].at] = others[i].byte;
        EXPECT(find_key(other, &part) == others[i].status);
        expect_fault(sec1_certificate_fault_at, other, others[i].status, others[i].offset);
    }
}

/* Certificates that end behind the issuer. In its one SET is what is given, of 20 bytes, from the
 * offset 18 on. */
#define WITH_NAMES(SET) "3024" "3022" "0201FF" "300506032B6570" "3016" "3114" SET
#define NAME_A "3008" "0603550403" "0C0161"
#define NAME_B "3008" "0603550403" "0C0162"

static void test_certificates(void)
{
    struct bytes certificate = unhex(OF_VERSION_3);
    struct sec1_public_key_parts key;
    struct sec1_part part;
    size_t offset = 777777;
    expect_certificate(certificate, 88, 91, in_version_3,
                       sizeof in_version_3 / sizeof *in_version_3);
    expect_certificate(unhex(OF_VERSION_1), 77, 44, in_version_1,
                       sizeof in_version_1 / sizeof *in_version_1);
    EXPECT(find_key(certificate, &part) == SEC1_OK &&
           sec1_public_key_read(certificate.data + part.offset, part.len, &key) == SEC1_OK);
    EXPECT(is_part(key.curve, 15, 8) && is_part(key.public_key, 26, 65));
    expect_fault(sec1_certificate_fault_at, unhex(WITH_NAMES(NAME_A NAME_B)), SEC1_TRUNCATED, 38);
    expect_fault(sec1_certificate_fault_at, unhex(WITH_NAMES(NAME_A NAME_A)), SEC1_TRUNCATED, 38);
    expect_fault(sec1_certificate_fault_at, unhex(WITH_NAMES(NAME_B NAME_A)), SEC1_VALUE, 18);
    EXPECT(sec1_certificate_fault_at(NULL, 0, &offset) == SEC1_TRUNCATED && offset == 0);
}

/* ---- signatures */

static uint32_t signature_parts(const uint8_t *bytes, size_t bytes_len, void *stored)
{
    return sec1_signature_read(bytes, bytes_len, stored);
}

static uint32_t read_signature(struct bytes input, struct sec1_signature_parts *parts)
{
    return read_guarded(signature_parts, input, parts, sizeof *parts);
}

/* The number of the bytes that are r; the others are s. */
static size_t r_len;

static uint32_t write_signature(const uint8_t *bytes, size_t bytes_len, uint8_t *out,
                                size_t out_len, size_t *len)
{
    return sec1_signature_write(bytes, r_len, bytes + r_len, bytes_len - r_len, out, out_len, len);
}

static void expect_signature(struct bytes r, struct bytes s, struct bytes wanted)
{
    r_len = r.len;
    expect_converted(write_signature, joined(r, s), wanted);
}

/* RFC 6979 appendix A.2.5, the message "sample" with SHA-256. */
#define R "EFD48B2AACB6A8FD1140DD9CD45E81D69D2C877B56AAF991C34D0EA84EAF3716"
#define S "F7CB1C942D657C41D436C7A1B6E29F65F3E900DBB9AFF4064DC4AB2F843ACDA8"

/* That signature, and by hand (X.690 section 8.3): numbers of which one has a zero in front. */
static const struct signature {
    const char *r, *s, *bytes;
    size_t r_at, r_len, s_at, s_len;
} signatures[] = {
    {R, S, "3046" "022100" R "022100" S, 4, 33, 39, 33},
    {"01", "02", "3006" "020101" "020102", 4, 1, 7, 1},
    {"", "7F", "3006" "020100" "02017F", 4, 1, 7, 1},
    {"80", "", "3007" "02020080" "020100", 4, 2, 8, 1},
    {"7FFF", "8000", "3009" "02027FFF" "0203008000", 4, 2, 8, 3},
    {"FF", "0100", "3008" "020200FF" "02020100", 4, 2, 8, 2},
};

/* Numbers that are negative or have a byte too many, and other faults. */
static const struct no_signature {
    const char *bytes;
    uint32_t status;
} no_signatures[] = {
    {"3006" "0201FF" "020101", SEC1_VALUE},
    {"3006" "020101" "020180", SEC1_VALUE},
    {"3044" "0220" R "0220" S, SEC1_VALUE},
    {"3007" "02020001" "020101", SEC1_VALUE},
    {"3007" "020101" "0202007F", SEC1_VALUE},
    {"3007" "0202FF80" "020101", SEC1_VALUE},
    {"3005" "0200" "020101", SEC1_VALUE},
    {"3003" "020101", SEC1_TRUNCATED},
    {"3000", SEC1_TRUNCATED},
    {"3006" "020101" "020201", SEC1_TRUNCATED},
    {"3006" "030101" "020101", SEC1_TAG},
    {"3006" "020101" "040101", SEC1_TAG},
    {"3106" "020101" "020101", SEC1_TAG},
    {"308106" "020101" "020101", SEC1_LENGTH},
    {"3007" "02810101" "020101", SEC1_LENGTH},
    {"3009" "020101" "020101" "020101", SEC1_TRAILING_DATA},
    {"3006" "020101" "020101" "0500", SEC1_TRAILING_DATA},
    {"", SEC1_TRUNCATED},
};

/* Numbers at the limit of 268,435,455 bytes of a content. */
static void expect_long_signatures(void)
{
    size_t size = ((size_t)1 << 28) - 1, len = 777777;
    uint8_t out[8] = {0};
    uint8_t *bytes = mmap(NULL, size + 1, PROT_READ | PROT_WRITE,
                          MAP_PRIVATE | MAP_ANONYMOUS | MAP_NORESERVE, -1, 0);
    if (bytes == MAP_FAILED) {
        perror("mmap");
        exit(2);
    }
    EXPECT(sec1_signature_write(bytes, size + 1, bytes, size, out, 8, &len) == SEC1_OK && len == 8);
    bytes[10] = 0x7F; /* a number of size - 10 bytes, with a header of 6, beside one of 3 bytes */
    EXPECT(sec1_signature_write(bytes, size, NULL, 0, out, 8, &len) == SEC1_BUFFER &&
           len == size - 10 + 6 + 3 + 6);
    bytes[9] = 0x7F;
    EXPECT(sec1_signature_write(bytes, size, NULL, 0, out, 8, &len) == SEC1_BUFFER &&
           len == size - 9 + 6 + 3 + 6);
    len = 777777;
    bytes[8] = 0x7F;
    EXPECT(sec1_signature_write(bytes, size, NULL, 0, out, 8, &len) == SEC1_OVERLENGTH &&
           len == 777777);
    bytes[0] = 0x80;
    EXPECT(sec1_signature_write(NULL, 0, bytes, size, out, 8, &len) == SEC1_OVERLENGTH &&
           len == 777777);
    munmap(bytes, size + 1);
}

static void test_signatures(void)
{
    struct sec1_signature_parts p;
    for (size_t i = 0; i < sizeof signatures / sizeof *signatures; i++) {
        const struct signature *k = &signatures[i];
        struct bytes bytes = unhex(k->bytes), r = unhex(k->r), s = unhex(k->s);
        struct bytes zeros = repeated(0, 3);
        expect_whole(signature_parts, bytes, &p, sizeof p);
        EXPECT(is_part(p.r, k->r_at, k->r_len) && is_part(p.s, k->s_at, k->s_len));
        expect_signature(r, s, bytes);
        expect_signature(joined(zeros, r), s, bytes);
        expect_signature(r, joined(zeros, s), bytes);
    }
    for (size_t i = 0; i < sizeof no_signatures / sizeof *no_signatures; i++)
        EXPECT(read_signature(unhex(no_signatures[i].bytes), &p) == no_signatures[i].status);
    size_t len;
    EXPECT(sec1_signature_write(NULL, 0, NULL, 0, NULL, 0, &len) == SEC1_BUFFER && len == 8);
    expect_long_signatures();
}

/* ---- points */

static size_t field;

static uint32_t compress(const uint8_t *bytes, size_t bytes_len, uint8_t *out, size_t out_len,
                         size_t *len)
{
    return sec1_point_compress(bytes, bytes_len, field, out, out_len, len);
}

static uint32_t to_hybrid(const uint8_t *bytes, size_t bytes_len, uint8_t *out, size_t out_len,
                          size_t *len)
{
    return sec1_point_to_hybrid(bytes, bytes_len, field, out, out_len, len);
}

static uint32_t point_parts(const uint8_t *bytes, size_t bytes_len, void *stored)
{
    uint32_t status = sec1_point_read(bytes, bytes_len, field, stored);
    EXPECT(sec1_point_check(bytes, bytes_len, field) == status);
    return status;
}

static uint32_t read_point(struct bytes input, struct sec1_point_parts *parts)
{
    return read_guarded(point_parts, input, parts, sizeof *parts);
}

/* A tag, x where it isn't NULL and y where it isn't NULL. */
static struct bytes point_bytes(uint8_t tag, const struct bytes *x, const struct bytes *y)
{
    struct bytes point = repeated(tag, 1);
    if (x)
        point = joined(point, *x);
    if (y)
        point = joined(point, *y);
    return point;
}

static void test_points_of(size_t n)
{
    field = n;
    struct sec1_point_parts parts;
    struct bytes x = repeated(0x11, n), even = repeated(0x22, n), odd = repeated(0x33, n);

    EXPECT(read_point(point_bytes(0, NULL, NULL), &parts) == SEC1_OK);
    EXPECT(parts.tag == SEC1_POINT_IDENTITY && is_absent(parts.x) && is_absent(parts.y));
    for (uint8_t tag = 2; tag <= 5; tag++) {
        if (tag == 4)
            continue;
        struct bytes point = point_bytes(tag, &x, NULL);
        EXPECT(read_point(point, &parts) == SEC1_OK);
        EXPECT(parts.tag == tag && is_part(parts.x, 1, n) && is_absent(parts.y));
        expect_converted(compress, point, point);
        expect_converted(to_hybrid, point, point);
    }
    for (uint8_t tag = 4; tag <= 7; tag++) {
        if (tag == 5)
            continue;
        for (int is_odd = 0; is_odd < 2; is_odd++) {
            struct bytes y = is_odd ? odd : even;
            struct bytes point = point_bytes(tag, &x, &y);
            if (tag != 4 && tag % 2 != is_odd) {
                EXPECT(read_point(point, &parts) == SEC1_POINT_ENCODING);
                expect_refused(compress, point, SEC1_POINT_ENCODING);
                expect_refused(to_hybrid, point, SEC1_POINT_ENCODING);
                continue;
            }
            EXPECT(read_point(point, &parts) == SEC1_OK);
            EXPECT(parts.tag == tag && is_part(parts.x, 1, n) && is_part(parts.y, 1 + n, n));
            expect_converted(compress, point, point_bytes(is_odd ? 3 : 2, &x, NULL));
            expect_converted(to_hybrid, point,
                             point_bytes(tag == 4 ? (is_odd ? 7 : 6) : tag, &x, &y));
        }
    }
    expect_converted(compress, repeated(0, 1), repeated(0, 1));

    /* every other tag and every other length */
    for (unsigned tag = 0; tag < 256; tag++) {
        for (size_t len = 0; len <= 2 * n + 2; len++) {
            struct bytes input = repeated(0, len);
            if (len)
                input.data[0] = (uint8_t)tag;
            int is_point = (tag == 0 && len == 1) ||
                           ((tag == 2 || tag == 3 || tag == 5) && len == n + 1) ||
                           ((tag == 4 || tag == 6) && len == 2 * n + 1);
            EXPECT(sec1_point_check(input.data, len, n) ==
                   (is_point ? SEC1_OK : SEC1_POINT_ENCODING));
        }
    }
    EXPECT(sec1_point_check(NULL, 0, n) == SEC1_POINT_ENCODING);

    static const size_t coordinates[] = {0, 9, 1, 1, 2, 1, 2, 2};
    for (size_t tag = 0; tag < 300; tag++) {
        size_t len = 777777, is_tag = tag < 8 && tag != 1;
        EXPECT(sec1_point_len(tag, n, &len) == (is_tag ? SEC1_OK : SEC1_POINT_ENCODING));
        EXPECT(len == (is_tag ? 1 + coordinates[tag] * n : 777777));
    }
    size_t len = 777777;
    EXPECT(sec1_point_len(4, 0, &len) == SEC1_FIELD_LENGTH && len == 777777);
    EXPECT(sec1_point_len(4, 67, &len) == SEC1_FIELD_LENGTH && len == 777777);
    EXPECT(sec1_point_len(SIZE_MAX, n, &len) == SEC1_POINT_ENCODING && len == 777777);
}

/* Makes a point of n bytes for each coordinate, in both forms, at every length of the buffer. */
static void test_coordinates(size_t n)
{
    for (unsigned last = 0; last < 2; last++) {
        struct bytes x = repeated(0x41, n), y = repeated(0x62, n), forms[2];
        y.data[n - 1] = (uint8_t)(0x62 + last);
        forms[0] = joined(repeated(4, 1), joined(x, y));
        forms[1] = joined(repeated((uint8_t)(2 + last), 1), x);
        for (size_t flag = 0; flag < 4; flag++) {
            struct bytes wanted = forms[flag != 0];
            for (size_t room = 0; room <= wanted.len + 2; room++) {
                struct guarded in_x = map_input(x.data, n, AT_END),
                               in_y = map_input(y.data, n, AT_START);
                struct guarded out = map_guarded(room, room % 2 ? AT_END : AT_START);
                size_t len = 777777, compress_by = flag == 3 ? SIZE_MAX : flag;
                memset(out.data, 0xEE, room);
                uint32_t status = sec1_point_from_coordinates(in_x.data, n, in_y.data, n,
                                                              compress_by, out.data, room, &len);
                size_t written = room < wanted.len ? 0 : wanted.len;
                EXPECT(status == (written ? (uint32_t)SEC1_OK : SEC1_BUFFER) && len == wanted.len);
                EXPECT(memcmp(out.data, wanted.data, written) == 0);
                EXPECT(all_are(out.data + written, room - written, 0xEE));
                unmap(in_x);
                unmap(in_y);
                unmap(out);
            }
        }
    }
}

static void test_made_points(void)
{
    for (size_t n = 1; n <= 66; n += n < 4 ? 1 : 31)
        test_coordinates(n);
    uint8_t out[8] = {9, 9, 9};
    size_t len = 777777;
    static const struct {
        size_t x_len, y_len;
    } others[] = {{0, 0},   {0, 1},   {1, 0},   {32, 31},      {31, 32},
                  {66, 67}, {67, 66}, {67, 67}, {256 + 32, 32}};
    static const uint8_t zeros[300];
    for (size_t i = 0; i < sizeof others / sizeof *others; i++)
        for (size_t flag = 0; flag < 2; flag++)
            EXPECT(sec1_point_from_coordinates(zeros, others[i].x_len, zeros, others[i].y_len, flag,
                                               out, sizeof out, &len) == SEC1_FIELD_LENGTH);
    EXPECT(len == 777777 && out[0] == 9);
    EXPECT(sec1_point_from_coordinates(NULL, 0, NULL, 0, 0, NULL, 0, &len) == SEC1_FIELD_LENGTH &&
           len == 777777);

    EXPECT(sec1_point_identity(NULL, 0, &len) == SEC1_BUFFER && len == 1);
    len = 777777;
    EXPECT(sec1_point_identity(out, 2, &len) == SEC1_OK && len == 1 && out[0] == 0 && out[1] == 9);
    EXPECT(sec1_point_check(out, len, 66) == SEC1_OK);
}

static int32_t order_of(struct bytes a, struct bytes b)
{
    int32_t order = 99;
    struct guarded first = map_input(a.data, a.len, AT_END),
                   second = map_input(b.data, b.len, AT_START);
    EXPECT(sec1_point_compare(first.data, a.len, second.data, b.len, field, &order) == SEC1_OK);
    unmap(first);
    unmap(second);
    return order;
}

static void test_point_order(size_t n)
{
    field = n;
    /* in ascending order: by tag, then by x, then by y */
    struct bytes low = repeated(0, n), high = repeated(0xFF, n);
    struct bytes one = low, big = low;
    one.data[n - 1] = 1;
    big.data[0] = 1;
    struct bytes points[] = {
        point_bytes(0, NULL, NULL),  point_bytes(2, &low, NULL),  point_bytes(2, &one, NULL),
        point_bytes(2, &big, NULL),  point_bytes(2, &high, NULL), point_bytes(3, &low, NULL),
        point_bytes(4, &low, &high), point_bytes(4, &one, &low),  point_bytes(4, &one, &one),
        point_bytes(4, &one, &big),  point_bytes(4, &big, &low),  point_bytes(5, &low, NULL),
        point_bytes(6, &low, &low),  point_bytes(6, &high, &low), point_bytes(7, &low, &one),
        point_bytes(7, &low, &high),
    };
    int count = sizeof points / sizeof *points;
    for (int i = 0; i < count; i++)
        for (int j = 0; j < count; j++)
            EXPECT(order_of(points[i], points[j]) == (i > j) - (i < j));

    int32_t order = 99;
    struct bytes point = points[1], none = repeated(9, 5);
    EXPECT(sec1_point_compare(point.data, point.len, none.data, none.len, n, &order) ==
           SEC1_POINT_ENCODING);
    EXPECT(sec1_point_compare(none.data, none.len, point.data, point.len, n, &order) ==
           SEC1_POINT_ENCODING);
    EXPECT(sec1_point_compare(point.data, point.len, point.data, point.len, 67, &order) ==
           SEC1_FIELD_LENGTH);
    EXPECT(order == 99);
}

static void test_points(void)
{
    for (size_t n = 1; n <= 66; n++) {
        test_points_of(n);
        if (n > 1)
            test_point_order(n);
    }

    /* the public key of the key above */
    field = 32;
    struct bytes point = unhex("04" X Y);
    expect_converted(compress, point, unhex("03" X));
    expect_converted(to_hybrid, point, unhex("07" X Y));

    struct sec1_point_parts parts;
    size_t len;
    static const size_t others[] = {0, 67, 68, 128, 256 + 32, ((size_t)1 << 32) + 32, SIZE_MAX};
    for (size_t i = 0; i < sizeof others / sizeof *others; i++) {
        field = others[i];
        EXPECT(read_point(point, &parts) == SEC1_FIELD_LENGTH);
        EXPECT(read_point(repeated(0, 1), &parts) == SEC1_FIELD_LENGTH);
        /* also where the first byte is no tag */
        EXPECT(read_point(repeated(1, 1), &parts) == SEC1_FIELD_LENGTH);
        EXPECT(sec1_point_len(1, field, &len) == SEC1_FIELD_LENGTH);
        expect_refused(compress, point, SEC1_FIELD_LENGTH);
        expect_refused(to_hybrid, point, SEC1_FIELD_LENGTH);
    }
}

/* ---- identifiers */

static uint32_t to_text(const uint8_t *bytes, size_t bytes_len, uint8_t *out, size_t out_len,
                        size_t *len)
{
    return sec1_identifier_to_text(bytes, bytes_len, (char *)out, out_len, len);
}

static uint32_t from_text(const uint8_t *bytes, size_t bytes_len, uint8_t *out, size_t out_len,
                          size_t *len)
{
    return sec1_identifier_from_text((const char *)bytes, bytes_len, out, out_len, len);
}

static uint32_t check_identifier(struct bytes content)
{
    struct guarded in = map_input(content.data, content.len, AT_END),
                   again = map_input(content.data, content.len, AT_START);
    uint32_t status = sec1_identifier_check(in.data, content.len);
    EXPECT(sec1_identifier_check(again.data, content.len) == status);
    unmap(in);
    unmap(again);
    return status;
}

/* The arcs of an identifier are the numbers in its text, at every length of the array. */
static void expect_arcs(const char *text, struct bytes content)
{
    uint32_t wanted[SEC1_IDENTIFIER_ARCS_MAX];
    size_t count = 0;
    for (const char *at = text; at; at = strchr(at, '.') ? strchr(at, '.') + 1 : NULL)
        wanted[count++] = (uint32_t)strtoul(at, NULL, 10);
    for (size_t room = 0; room <= count + 2; room++) {
        for (enum side side = AT_END; side <= AT_START; side++) {
            struct guarded in = map_input(content.data, content.len, side);
            struct guarded out = map_guarded(room * sizeof *wanted, side);
            size_t found = 777777, size = room * sizeof *wanted;
            memset(out.data, 0xEE, size);
            uint32_t status =
                sec1_identifier_arcs(in.data, content.len, (uint32_t *)out.data, room, &found);
            EXPECT(found == count && status == (room < count ? SEC1_BUFFER : SEC1_OK));
            if (status)
                EXPECT(all_are(out.data, size, 0xEE));
            else
                EXPECT(memcmp(out.data, wanted, count * sizeof *wanted) == 0 &&
                       all_are(out.data + count * sizeof *wanted, (room - count) * sizeof *wanted,
                               0xEE));
            unmap(in);
            unmap(out);
        }
    }
}

static void expect_no_arcs(struct bytes content)
{
    uint32_t arcs[2] = {77, 77};
    size_t count = 777777;
    EXPECT(sec1_identifier_arcs(content.data, content.len, arcs, 2, &count) == SEC1_VALUE &&
           count == 777777 && arcs[0] == 77 && arcs[1] == 77);
}

static void expect_identifier(const char *text, struct bytes content)
{
    struct bytes ended = text_bytes(text);
    EXPECT(check_identifier(content) == SEC1_OK);
    ended.len++;
    expect_converted(to_text, content, ended);
    expect_converted(from_text, text_bytes(text), content);
    expect_arcs(text, content);
}

/* The longest text of an identifier. */
static void expect_longest_text(void)
{
    struct bytes content = repeated(0x7F, SEC1_IDENTIFIER_CONTENT_MAX);
    char text[SEC1_IDENTIFIER_TEXT_MAX];
    size_t len;
    EXPECT(sec1_identifier_to_text(content.data, content.len, text, sizeof text, &len) == SEC1_OK);
    EXPECT(len == 157 && strlen(text) == 156);
}

static void test_identifiers(void)
{
    expect_identifier("1.2.840.10045.2.1", unhex("2A8648CE3D0201"));
    expect_identifier("1.2.840.10045.3.1.7", unhex("2A8648CE3D030107"));
    expect_identifier("1.3.132.0.34", unhex("2B81040022"));
    expect_identifier("0.0", unhex("00"));
    expect_identifier("0.39", unhex("27"));
    expect_identifier("1.0", unhex("28"));
    expect_identifier("1.39", unhex("4F"));
    expect_identifier("2.0", unhex("50"));
    expect_identifier("2.39", unhex("77"));
    expect_identifier("2.40", unhex("78"));
    expect_identifier("2.47", unhex("7F"));
    expect_identifier("2.48", unhex("8100"));
    expect_identifier("2.999", unhex("8837"));
    expect_identifier("2.4294967215", unhex("8FFFFFFF7F"));
    expect_identifier("1.2.4294967295", unhex("2A8FFFFFFF7F"));
    expect_identifier("1.2.0", unhex("2A00"));
    expect_identifier("1.2.127.128.16383.16384", unhex("2A7F8100FF7F818000"));

    /* 39 bytes of content, as the longest text and as the shortest */
    char longest[200] = "2.47", shortest[200] = "1.2";
    for (int i = 0; i < 38; i++) {
        strcat(longest, ".127");
        strcat(shortest, ".1");
    }
    EXPECT(strlen(longest) == 156);
    expect_longest_text();
    expect_identifier(longest, repeated(0x7F, 39));
    expect_identifier(shortest, joined(unhex("2A"), repeated(1, 38)));
    expect_refused(from_text, text_bytes(strcat(shortest, ".1")), SEC1_VALUE);
    expect_refused(to_text, repeated(1, 40), SEC1_VALUE);

    static const char *const no_texts[] = {
        "",
        ".",
        "1",
        "1.",
        ".1",
        "1.2.",
        "01.2",
        "1.02",
        "1.40",
        "0.40",
        "3.1",
        "1.-2",
        "+1.2",
        "1.+2",
        "1 .2",
        "1. 2",
        "1.2\n",
        "1.2.4294967296",
        "2.4294967216",
        "1.2.99999999999999999999",
        "1..2",
        "a.b",
        "1.2.\xC3\xA9",
        "\xFF\xFE",
    };
    for (size_t i = 0; i < sizeof no_texts / sizeof *no_texts; i++)
        expect_refused(from_text, text_bytes(no_texts[i]), SEC1_VALUE);
    struct bytes with_end = text_bytes("1.2");
    with_end.len++;
    expect_refused(from_text, with_end, SEC1_VALUE);

    static const char *const no_contents[] = {"",       "80",   "8001",         "2A80",
                                              "2A8001", "2AFF", "2A9080808000", "9080808000"};
    for (size_t i = 0; i < sizeof no_contents / sizeof *no_contents; i++) {
        expect_refused(to_text, unhex(no_contents[i]), SEC1_VALUE);
        expect_no_arcs(unhex(no_contents[i]));
        EXPECT(check_identifier(unhex(no_contents[i])) == SEC1_VALUE);
    }
    EXPECT(check_identifier(repeated(1, 40)) == SEC1_VALUE &&
           sec1_identifier_check(NULL, 0) == SEC1_VALUE);
    expect_no_arcs(repeated(1, 40));
    size_t len = 777777;
    EXPECT(sec1_identifier_arcs(NULL, 0, NULL, 0, &len) == SEC1_VALUE && len == 777777);
    EXPECT(sec1_identifier_to_text(NULL, 0, NULL, 0, &len) == SEC1_VALUE && len == 777777);
    EXPECT(sec1_identifier_from_text(NULL, 0, NULL, 0, &len) == SEC1_VALUE && len == 777777);
}

/* ---- points as hexadecimal texts */

static uint32_t to_upper(const uint8_t *bytes, size_t bytes_len, uint8_t *out, size_t out_len,
                         size_t *len)
{
    return sec1_point_to_hex(bytes, bytes_len, field, 0, (char *)out, out_len, len);
}

static uint32_t to_lower(const uint8_t *bytes, size_t bytes_len, uint8_t *out, size_t out_len,
                         size_t *len)
{
    return sec1_point_to_hex(bytes, bytes_len, field, SIZE_MAX, (char *)out, out_len, len);
}

static uint32_t from_hex(const uint8_t *bytes, size_t bytes_len, uint8_t *out, size_t out_len,
                         size_t *len)
{
    return sec1_point_from_hex((const char *)bytes, bytes_len, field, out, out_len, len);
}

/* A point and its text in capital letters, both ways, and in small ones. */
static void expect_hex(const char *text)
{
    struct bytes point = unhex(text), upper = text_bytes(text), lower = text_bytes(text);
    expect_converted(from_hex, upper, point);
    upper.len++;
    expect_converted(to_upper, point, upper);
    for (size_t i = 0; i < lower.len; i++)
        if (lower.data[i] >= 'A')
            lower.data[i] += 'a' - 'A';
    expect_converted(from_hex, lower, point);
    lower.len++;
    expect_converted(to_lower, point, lower);
}

static void test_hexadecimal(void)
{
    field = 32;
    expect_hex("00");
    expect_hex("04" X Y);
    expect_hex("03" X);
    expect_hex("05" X);
    expect_hex("07" X Y);
    expect_refused(from_hex, text_bytes("06" X Y), SEC1_POINT_ENCODING);
    expect_refused(from_hex, text_bytes("01"), SEC1_POINT_ENCODING);
    expect_refused(from_hex, text_bytes("03" X "00"), SEC1_POINT_ENCODING);
    expect_refused(from_hex, text_bytes("03" X "0"), SEC1_POINT_ENCODING);
    expect_refused(to_upper, unhex("04" X), SEC1_POINT_ENCODING);

    field = 2;
    expect_hex("04ABCDEF01");
    static const char *const no_texts[] = {
        "", "0", "000", "04aBCDEF01", "04abCDef01", "04ABCDEFg1", "04ABCDEF0", "04ABCDEF011",
        " 04ABCDEF01", "04ABCDEF01 ", "0x04ABCDEF01", "04ABCD-F01", "04ABCDE\xC3\xA9",
    };
    for (size_t i = 0; i < sizeof no_texts / sizeof *no_texts; i++)
        expect_refused(from_hex, text_bytes(no_texts[i]), SEC1_POINT_ENCODING);
    struct bytes ended = text_bytes("04ABCDEF01");
    ended.len++;
    expect_refused(from_hex, ended, SEC1_POINT_ENCODING);
    expect_refused(from_hex, repeated('0', 268), SEC1_POINT_ENCODING);
    expect_refused(from_hex, repeated('0', 4000), SEC1_POINT_ENCODING);

    field = 66;
    char text[SEC1_POINT_TEXT_MAX];
    struct bytes longest = repeated(0xAE, SEC1_POINT_MAX), again;
    size_t len;
    longest.data[0] = 4;
    EXPECT(to_lower(longest.data, longest.len, (uint8_t *)text, sizeof text, &len) == SEC1_OK);
    EXPECT(len == sizeof text && strlen(text) == 266 && strncmp(text, "04aeaeae", 8) == 0);
    EXPECT(from_hex((uint8_t *)text, 266, again.data, sizeof again.data, &again.len) == SEC1_OK);
    EXPECT(again.len == longest.len && memcmp(again.data, longest.data, longest.len) == 0);

    static const size_t others[] = {0, 67, SIZE_MAX};
    for (size_t i = 0; i < sizeof others / sizeof *others; i++) {
        field = others[i];
        expect_refused(from_hex, text_bytes("00"), SEC1_FIELD_LENGTH);
        expect_refused(to_upper, repeated(0, 1), SEC1_FIELD_LENGTH);
    }
    field = 32;
    len = 777777;
    EXPECT(from_hex(NULL, 0, NULL, 0, &len) == SEC1_POINT_ENCODING && len == 777777);
    EXPECT(to_upper(NULL, 0, NULL, 0, &len) == SEC1_POINT_ENCODING && len == 777777);
}

/* ---- curves */

/* What `openssl ecparam -list_curves`, `-param_enc named_curve` and `-text` of OpenSSL 3.0 say of
 * curves, and the names of FIPS 186-4 and ANSI X9.62. */
static const struct curve {
    const char *name, *content;
    size_t field_len;
    const char *other_name;
} curves[] = {
    {"secp112r1", "2B81040006", 14, NULL},
    {"secp160r2", "2B8104001E", 20, NULL},
    {"secp192r1", "2A8648CE3D030101", 24, "P-192"},
    {"secp192r1", "2A8648CE3D030101", 24, "prime192v1"},
    {"secp224r1", "2B81040021", 28, "P-224"},
    {"secp256k1", "2B8104000A", 32, NULL},
    {"secp256r1", "2A8648CE3D030107", 32, "P-256"},
    {"secp256r1", "2A8648CE3D030107", 32, "prime256v1"},
    {"secp384r1", "2B81040022", 48, "P-384"},
    {"secp521r1", "2B81040023", 66, "P-521"},
    {"prime239v3", "2A8648CE3D030106", 30, NULL},
    {"brainpoolP160t1", "2B2403030208010102", 20, NULL},
    {"brainpoolP320r1", "2B2403030208010109", 40, NULL},
    {"brainpoolP512t1", "2B240303020801010E", 64, NULL},
};

static uint32_t curve_name(const uint8_t *bytes, size_t bytes_len, uint8_t *out, size_t out_len,
                           size_t *len)
{
    return sec1_curve_name(bytes, bytes_len, (char *)out, out_len, len);
}

static uint32_t curve_content(const uint8_t *bytes, size_t bytes_len, uint8_t *out, size_t out_len,
                              size_t *len)
{
    return sec1_curve_from_name((const char *)bytes, bytes_len, out, out_len, len);
}

static uint32_t field_len_of(struct bytes content, size_t *field_len)
{
    struct guarded in = map_input(content.data, content.len, AT_END);
    uint32_t status = sec1_curve_field_len(in.data, content.len, field_len);
    unmap(in);
    return status;
}

static void test_curves(void)
{
    size_t found, len;
    for (size_t i = 0; i < sizeof curves / sizeof *curves; i++) {
        struct bytes content = unhex(curves[i].content), ended = text_bytes(curves[i].name);
        ended.len++;
        EXPECT(field_len_of(content, &found) == SEC1_OK && found == curves[i].field_len);
        expect_converted(curve_name, content, ended);
        expect_converted(curve_content, text_bytes(curves[i].name), content);
        if (curves[i].other_name)
            expect_converted(curve_content, text_bytes(curves[i].other_name), content);
    }
    char name[SEC1_CURVE_NAME_MAX];
    struct bytes longest = unhex("2B240303020801010D");
    EXPECT(sec1_curve_name(longest.data, longest.len, name, sizeof name, &len) == SEC1_OK &&
           len == SEC1_CURVE_NAME_MAX);

    /* SM2, a curve of WTLS, prefixes of curves, and no identifiers */
    static const char *const no_contents[] = {
        "2A811CCF5501822D",
        "672B010406",
        "2A8648CE3D0301",
        "2A8648CE3D03010700",
        "2A8648CE3D030100",
        "2B",
        "80",
        "",
    };
    for (size_t i = 0; i < sizeof no_contents / sizeof *no_contents; i++) {
        found = 777777;
        EXPECT(field_len_of(unhex(no_contents[i]), &found) == SEC1_CURVE && found == 777777);
        expect_refused(curve_name, unhex(no_contents[i]), SEC1_CURVE);
    }
    static const char *const no_names[] = {
        "",           "p-256", "P-256 ", "SECP256R1",           "secp256r",
        "secp256r11", "P-25",  "SM2",    "1.2.840.10045.3.1.7", "\xFF\xFE",
    };
    for (size_t i = 0; i < sizeof no_names / sizeof *no_names; i++)
        expect_refused(curve_content, text_bytes(no_names[i]), SEC1_CURVE);
    struct bytes with_end = text_bytes("P-256");
    with_end.len++;
    expect_refused(curve_content, with_end, SEC1_CURVE);
    len = 777777;
    EXPECT(sec1_curve_name(NULL, 0, NULL, 0, &len) == SEC1_CURVE && len == 777777);
    EXPECT(sec1_curve_from_name(NULL, 0, NULL, 0, &len) == SEC1_CURVE && len == 777777);
}

/* ---- elements */

static uint32_t check_tree(struct bytes input, size_t *elements)
{
    uint32_t status = 0;
    for (enum side side = AT_END; side <= AT_START; side++) {
        struct guarded in = map_input(input.data, input.len, side);
        *elements = 777777;
        status = sec1_tree_check(in.data, input.len, elements);
        EXPECT(status == SEC1_OK || *elements == 777777);
        unmap(in);
    }
    return status;
}

static uint32_t document_len(struct bytes input, size_t *len)
{
    uint32_t status = 0;
    for (enum side side = AT_END; side <= AT_START; side++) {
        struct guarded in = map_input(input.data, input.len, side);
        *len = 777777;
        status = sec1_document_len(in.data, input.len, len);
        unmap(in);
    }
    return status;
}

/* Reads the element at the beginning. */
static uint32_t read_element(struct bytes input, size_t *header_len, size_t *content_len)
{
    uint32_t status = 0;
    for (enum side side = AT_END; side <= AT_START; side++) {
        struct guarded in = map_input(input.data, input.len, side);
        *header_len = *content_len = 777777;
        status = sec1_element_read(in.data, input.len, header_len, content_len);
        EXPECT(status == SEC1_OK || (*header_len == 777777 && *content_len == 777777));
        unmap(in);
    }
    return status;
}

static size_t element_tag;

static uint32_t write_element(const uint8_t *content, size_t content_len, uint8_t *out,
                              size_t out_len, size_t *len)
{
    return sec1_element_write(element_tag, content, content_len, out, out_len, len);
}

static void expect_written(size_t tag, struct bytes content, struct bytes wanted)
{
    element_tag = tag;
    expect_converted(write_element, content, wanted);
}

/* The examples of X.690 sections 8.2.2, 8.6.4.2, 8.8.2 and 8.19.5, and elements whose lengths are
 * in the forms of sections 8.1.3.4 and 8.1.3.5, from the greatest of each to the least of the
 * next. */
static void test_written_elements(void)
{
    expect_written(0x01, unhex("FF"), unhex("0101FF"));
    expect_written(0x03, unhex("040A3B5F291CD0"), unhex("0307040A3B5F291CD0"));
    expect_written(0x05, unhex(""), unhex("0500"));
    expect_written(0x06, unhex("813403"), unhex("0603813403"));
    expect_written(0xFE, repeated(7, 127), joined(unhex("FE7F"), repeated(7, 127)));
    expect_written(0x1E, repeated(7, 128), joined(unhex("1E8180"), repeated(7, 128)));
    expect_written(0x30, repeated(7, 201), joined(unhex("3081C9"), repeated(7, 201)));
    expect_written(0xA3, repeated(7, 255), joined(unhex("A381FF"), repeated(7, 255)));
    expect_written(0x80, repeated(7, 256), joined(unhex("80820100"), repeated(7, 256)));

    /* end of contents, tags of more than one byte, and what is no byte */
    static const size_t no_tags[] = {0, 0x1F, 0x3F, 0x5F, 0x9F, 0xBF, 0xFF, 256, 0x104, SIZE_MAX};
    for (size_t i = 0; i < sizeof no_tags / sizeof *no_tags; i++) {
        element_tag = no_tags[i];
        expect_refused(write_element, unhex("FF"), SEC1_TAG);
        expect_refused(write_element, unhex(""), SEC1_TAG);
    }
}

/* The header that is written of a content of this length, between zeros. */
static void expect_long(const uint8_t *zeros, uint8_t *out, size_t len, struct bytes header)
{
    size_t all = header.len + len, found = 777777;
    EXPECT(sec1_element_write(0x04, zeros, len, out, all - 1, &found) == SEC1_BUFFER &&
           found == all && out[0] == 0);
    EXPECT(sec1_element_write(0x04, zeros, len, out, all, &found) == SEC1_OK && found == all);
    EXPECT(memcmp(out, header.data, header.len) == 0 && all_are(out + header.len, len, 0));
    memset(out, 0, header.len);
}

static void test_long_elements(void)
{
    size_t size = (size_t)1 << 28, room = 0x1000010, found = 777777;
    uint8_t *zeros =
        mmap(NULL, size, PROT_READ, MAP_PRIVATE | MAP_ANONYMOUS | MAP_NORESERVE, -1, 0);
    uint8_t *out = mmap(NULL, room, PROT_READ | PROT_WRITE, MAP_PRIVATE | MAP_ANONYMOUS, -1, 0);
    if (zeros == MAP_FAILED || out == MAP_FAILED) {
        perror("mmap");
        exit(2);
    }
    expect_long(zeros, out, 0xFFFF, unhex("0482FFFF"));
    expect_long(zeros, out, 0x10000, unhex("0483010000"));
    expect_long(zeros, out, 0xFFFFFF, unhex("0483FFFFFF"));
    expect_long(zeros, out, 0x1000000, unhex("048401000000"));
    EXPECT(sec1_element_write(0x04, zeros, 268435455, out, 9, &found) == SEC1_BUFFER &&
           found == 268435461);
    found = 777777;
    EXPECT(sec1_element_write(0x04, zeros, 268435456, out, 9, &found) == SEC1_OVERLENGTH);
    EXPECT(sec1_element_write(0x04, zeros, 268435456, NULL, 0, &found) == SEC1_OVERLENGTH);
    EXPECT(sec1_element_write(0x1F, zeros, 268435456, out, 9, &found) == SEC1_TAG);
    EXPECT(found == 777777 && all_are(out, 9, 0));
    munmap(zeros, size);
    munmap(out, room);
}

static const struct tree {
    const char *bytes;
    uint32_t status;
    size_t elements;
} trees[] = {
    {WHOLE_KEY, SEC1_OK, 7},
    {"306B020101" "0420" PRIVATE "A144034200" "04" X Y, SEC1_OK, 5},
    {"30050201010400", SEC1_OK, 3},
    {"3006020200010400", SEC1_OK, 3},
    {"30110201010400A00406022A03A00406022A03", SEC1_OK, 7},
    {"0400", SEC1_OK, 1},
    {"3000", SEC1_OK, 1},
    {"3003040500", SEC1_TRUNCATED, 0},
    {"3081050201010400", SEC1_LENGTH, 0},
    {"30800201010400" "0000", SEC1_LENGTH, 0},
    {"040000", SEC1_TRAILING_DATA, 0},
    {"1F00", SEC1_TAG, 0},
    {"", SEC1_TRUNCATED, 0},
};

static const struct document {
    const char *bytes;
    uint32_t status;
    size_t len;
} documents[] = {
    {WHOLE_KEY, SEC1_OK, 121},
    {WHOLE_KEY "00", SEC1_TRAILING_DATA, 121},
    {"3003040500", SEC1_OK, 5},
    {"30840FFFFFFF", SEC1_TRUNCATED, 268435461},
    {"308410000000", SEC1_LENGTH, 0},
    {"308410", SEC1_TRUNCATED, 0},
    {"0400", SEC1_OK, 2},
    {"0403AABB", SEC1_TRUNCATED, 5},
    {"0401AABB", SEC1_TRAILING_DATA, 3},
    {"048180", SEC1_TRUNCATED, 131},
    {"04817F", SEC1_LENGTH, 0},
    {"0480", SEC1_LENGTH, 0},
    {"0485", SEC1_LENGTH, 0},
    {"04", SEC1_TRUNCATED, 0},
    {"0000", SEC1_TAG, 0},
    {"1F", SEC1_TAG, 0},
    {"", SEC1_TRUNCATED, 0},
};

/* The first element of some bytes. */
static const struct first_element {
    const char *bytes;
    uint32_t status;
    size_t header_len, content_len;
} first_elements[] = {
    {WHOLE_KEY, SEC1_OK, 2, 119},
    {WHOLE_KEY "00", SEC1_OK, 2, 119},
    {"0400", SEC1_OK, 2, 0},
    {"04000000", SEC1_OK, 2, 0},
    {"0201010400", SEC1_OK, 2, 1},
    {"3003040500", SEC1_OK, 2, 3},
    {"3003040500FF", SEC1_OK, 2, 3},
    {"0403AABB", SEC1_TRUNCATED, 0, 0},
    {"30840FFFFFFF", SEC1_TRUNCATED, 0, 0},
    {"308410000000", SEC1_LENGTH, 0, 0},
    {"04817F", SEC1_LENGTH, 0, 0},
    {"048180", SEC1_TRUNCATED, 0, 0},
    {"0480", SEC1_LENGTH, 0, 0},
    {"04", SEC1_TRUNCATED, 0, 0},
    {"0000", SEC1_TAG, 0, 0},
    {"1F00", SEC1_TAG, 0, 0},
    {"", SEC1_TRUNCATED, 0, 0},
};

static void test_first_elements(void)
{
    size_t header_len, content_len;
    for (size_t i = 0; i < sizeof first_elements / sizeof *first_elements; i++) {
        const struct first_element *e = &first_elements[i];
        EXPECT(read_element(unhex(e->bytes), &header_len, &content_len) == e->status);
        EXPECT(e->status != SEC1_OK ||
               (header_len == e->header_len && content_len == e->content_len));
    }
    struct bytes two = joined(unhex("048180"), joined(repeated(5, 128), unhex("0500")));
    EXPECT(read_element(two, &header_len, &content_len) == SEC1_OK && header_len == 3 &&
           content_len == 128);
    EXPECT(sec1_element_read(NULL, 0, &header_len, &content_len) == SEC1_TRUNCATED);
    EXPECT(header_len == 3 && content_len == 128);
}

/* Which byte of the key is changed, to what, and where the fault lies then, counted by hand. */
static const struct damage {
    size_t at;
    uint8_t byte;
    uint32_t status;
    size_t offset;
} damages[] = {
    {0, 0x31, SEC1_TAG, 0},        {0, 0x00, SEC1_TAG, 0},     {1, 0x32, SEC1_TRUNCATED, 1},
    {1, 0x80, SEC1_LENGTH, 1},     {1, 0x30, SEC1_TRUNCATED, 40}, {2, 0x04, SEC1_TAG, 2},
    {4, 0x00, SEC1_VALUE, 4},      {5, 0x30, SEC1_TAG, 5},     {6, 0x2D, SEC1_TRUNCATED, 6},
    {39, 0xA1, SEC1_TAG, 41},      {42, 0x07, SEC1_TRAILING_DATA, 50}, {43, 0x80, SEC1_VALUE, 43},
};

static const struct tree_fault {
    const char *bytes;
    uint32_t status;
    size_t offset;
} tree_faults[] = {
    {"3002050000", SEC1_TRAILING_DATA, 4},
    {"3003050005", SEC1_TRUNCATED, 5},
    {"3003050200", SEC1_TRUNCATED, 3},
    {"30031F0100", SEC1_TAG, 2},
    {"3003048100", SEC1_LENGTH, 3},
    {"3003A00100", SEC1_TAG, 4},
    {"", SEC1_TRUNCATED, 0},
    {"3003050000", SEC1_TAG, 4},
};

/* By the call that reads a key as well: the parts are stored where no offset is. */
static void expect_read_at(struct bytes input, uint32_t wanted, size_t wanted_offset)
{
    for (enum side side = AT_END; side <= AT_START; side++) {
        struct guarded in = map_input(input.data, input.len, side);
        struct sec1_key_parts parts, found;
        size_t offset = 777777;
        memset(&parts, 0xA5, sizeof parts);
        found = parts;
        EXPECT(sec1_key_read(in.data, input.len, &found) == wanted);
        EXPECT(sec1_key_read_at(in.data, input.len, &parts, &offset) == wanted &&
               offset == (wanted ? wanted_offset : 777777) &&
               memcmp(&parts, &found, sizeof parts) == 0);
        unmap(in);
    }
}

/* Of the signature of 1 and 128: which byte is changed, to what, and where the fault lies then. */
static const struct damage signature_damages[] = {
    {0, 0x31, SEC1_TAG, 0},    {1, 0x08, SEC1_TRUNCATED, 1}, {1, 0x06, SEC1_TRUNCATED, 6},
    {1, 0x81, SEC1_LENGTH, 1}, {2, 0x04, SEC1_TAG, 2},       {3, 0x80, SEC1_LENGTH, 3},
    {3, 0x00, SEC1_VALUE, 4},  {4, 0x80, SEC1_VALUE, 4},     {5, 0x03, SEC1_TAG, 5},
    {6, 0x01, SEC1_TRAILING_DATA, 8}, {6, 0x03, SEC1_TRUNCATED, 6}, {8, 0x7F, SEC1_VALUE, 7},
};

static void test_signature_faults(void)
{
    struct bytes signature = unhex("300702010102020080");
    expect_fault(sec1_signature_fault_at, signature, SEC1_OK, 0);
    for (size_t i = 0; i < sizeof signature_damages / sizeof *signature_damages; i++) {
        struct bytes damaged = signature;
        damaged.data[signature_damages[i].at] = signature_damages[i].byte;
        expect_fault(sec1_signature_fault_at, damaged, signature_damages[i].status,
                     signature_damages[i].offset);
    }
    expect_fault(sec1_signature_fault_at, joined(signature, repeated(0, 1)), SEC1_TRAILING_DATA, 9);
    expect_fault(sec1_signature_fault_at, unhex("3003020101"), SEC1_TRUNCATED, 5);
    size_t offset = 777777;
    EXPECT(sec1_signature_fault_at(NULL, 0, &offset) == SEC1_TRUNCATED && offset == 0);
}

/* Which byte of a public key is changed, to what, and where the fault lies then. */
static const struct damage public_key_damages[] = {
    {0, 0x31, SEC1_TAG, 0},    {1, 0x1A, SEC1_TRUNCATED, 1}, {1, 0x18, SEC1_TRUNCATED, 24},
    {2, 0x31, SEC1_TAG, 2},    {3, 0x14, SEC1_TRAILING_DATA, 23}, {3, 0x08, SEC1_TRUNCATED, 5},
    {4, 0x05, SEC1_TAG, 4},    {6, 0x80, SEC1_VALUE, 6},     {12, 0x02, SEC1_CURVE, 2},
    {13, 0x1F, SEC1_TRAILING_DATA, 13}, {13, 0x05, SEC1_CURVE, 2}, {14, 0x09, SEC1_TRUNCATED, 14},
    {22, 0x09, SEC1_CURVE, 2}, {23, 0x04, SEC1_TAG, 23},     {24, 0x03, SEC1_TRUNCATED, 24},
    {25, 0x08, SEC1_VALUE, 25}, {25, 0x01, SEC1_POINT_ENCODING, 23},
    {26, 0x01, SEC1_POINT_ENCODING, 23},
};

static void test_public_key_faults(void)
{
    struct bytes key = unhex("3019" ON_P256 "03020000");
    expect_fault(sec1_public_key_fault_at, key, SEC1_OK, 0);
    for (size_t i = 0; i < sizeof public_key_damages / sizeof *public_key_damages; i++) {
        struct bytes damaged = key;
        damaged.data[public_key_damages[i].at] = public_key_damages[i].byte;
        expect_fault(sec1_public_key_fault_at, damaged, public_key_damages[i].status,
                     public_key_damages[i].offset);
    }
    expect_fault(sec1_public_key_fault_at, joined(key, repeated(0, 1)), SEC1_TRAILING_DATA, 27);
    size_t offset = 777777;
    EXPECT(sec1_public_key_fault_at(NULL, 0, &offset) == SEC1_TRUNCATED && offset == 0);
}

/* Which byte of a container is changed, to what, and where the fault lies then. */
static const struct damage container_damages[] = {
    {0, 0x31, SEC1_TAG, 0},     {1, 0x1D, SEC1_TRUNCATED, 1}, {4, 0x02, SEC1_VALUE, 4},
    {5, 0x31, SEC1_TAG, 5},     {15, 0x02, SEC1_CURVE, 5},    {16, 0x1F, SEC1_TRAILING_DATA, 16},
    {26, 0x05, SEC1_TAG, 26},   {27, 0x03, SEC1_TRUNCATED, 27},
    {27, 0x01, SEC1_TRAILING_DATA, 29},
};

static void test_container_faults(void)
{
    struct bytes key = unhex("301C020100" ON_P256 "04023000");
    expect_fault(sec1_private_key_info_fault_at, key, SEC1_OK, 0);
    for (size_t i = 0; i < sizeof container_damages / sizeof *container_damages; i++) {
        struct bytes damaged = key;
        damaged.data[container_damages[i].at] = container_damages[i].byte;
        expect_fault(sec1_private_key_info_fault_at, damaged, container_damages[i].status,
                     container_damages[i].offset);
    }
    size_t offset = 777777;
    EXPECT(sec1_private_key_info_fault_at(NULL, 0, &offset) == SEC1_TRUNCATED && offset == 0);
}

static void test_faults(void)
{
    struct bytes key = unhex("3031020101" "0420" PRIVATE "A00A06082A8648CE3D030107");
    expect_read_at(key, SEC1_OK, 0);
    expect_fault(sec1_key_fault_at, key, SEC1_OK, 0);
    expect_fault(sec1_tree_fault_at, key, SEC1_OK, 0);
    for (size_t i = 0; i < sizeof damages / sizeof *damages; i++) {
        struct bytes damaged = key;
        damaged.data[damages[i].at] = damages[i].byte;
        expect_fault(sec1_key_fault_at, damaged, damages[i].status, damages[i].offset);
        expect_read_at(damaged, damages[i].status, damages[i].offset);
    }
    for (size_t end = 0; end < key.len; end++) {
        struct bytes cut = key;
        cut.len = end;
        expect_fault(sec1_key_fault_at, cut, SEC1_TRUNCATED, end ? 1 : 0);
    }
    expect_fault(sec1_key_fault_at, joined(key, repeated(0, 1)), SEC1_TRAILING_DATA, key.len);
    /* the element around ends, and the bytes don't */
    expect_fault(sec1_key_fault_at, unhex("30030201010400"), SEC1_TRUNCATED, 5);
    for (size_t i = 0; i < sizeof tree_faults / sizeof *tree_faults; i++)
        expect_fault(sec1_tree_fault_at, unhex(tree_faults[i].bytes), tree_faults[i].status,
                     tree_faults[i].offset);
    size_t offset = 777777;
    EXPECT(sec1_key_fault_at(NULL, 0, &offset) == SEC1_TRUNCATED && offset == 0);
    offset = 777777;
    EXPECT(sec1_tree_fault_at(NULL, 0, &offset) == SEC1_TRUNCATED && offset == 0);
}

static void test_elements(void)
{
    size_t found;
    for (size_t i = 0; i < sizeof trees / sizeof *trees; i++) {
        EXPECT(check_tree(unhex(trees[i].bytes), &found) == trees[i].status);
        EXPECT(trees[i].status != SEC1_OK || found == trees[i].elements);
    }
    for (size_t i = 0; i < sizeof documents / sizeof *documents; i++) {
        EXPECT(document_len(unhex(documents[i].bytes), &found) == documents[i].status);
        EXPECT(found == documents[i].len);
    }
    EXPECT(sec1_tree_check(NULL, 0, &found) == SEC1_TRUNCATED);
    EXPECT(sec1_document_len(NULL, 0, &found) == SEC1_TRUNCATED && found == 0);

    /* 64 headers around one another, and one more */
    struct bytes tree = {0};
    for (int i = 0; i < 64; i++) {
        tree.data[2 * i] = 0x30;
        tree.data[2 * i + 1] = (uint8_t)(126 - 2 * i);
    }
    tree.len = 128;
    EXPECT(check_tree(tree, &found) == SEC1_OK && found == 64);
    EXPECT(check_tree(joined(unhex("308180"), tree), &found) == SEC1_DEPTH);
    expect_fault(sec1_tree_fault_at, tree, SEC1_OK, 0);
    expect_fault(sec1_tree_fault_at, joined(unhex("308180"), tree), SEC1_DEPTH, 129);
}

/* ---- pictures */

#define FIRST_ROWS                                                                                  \
    "   0 30 77           119  SEQUENCE                     ECPrivateKey\n"                         \
    "   2 02 01             1    INTEGER 1                  version\n"                              \
    "   5 04 20            32    OCTET STRING, 32 bytes     privateKey, not shown\n"                \
    "  39 A0 0A            10    [0]                        parameters\n"                           \
    "  41 06 08             8      OBJECT IDENTIFIER P-256 (1.2.840.10045.3.1.7)  namedCurve\n"     \
    "  51 A1 44            68    [1]                        publicKey\n"
#define LAST_ROW "  53 03 42            66      BIT STRING, 65 bytes     uncompressed, 2 x 32 bytes\n"

/* An input in hexadecimal or as a text, its picture, and the lines of that: kind, offset, lengths,
 * depth, and whether the content is hidden. */
static const struct picture {
    const char *bytes, *written, *text;
    size_t is_key, count;
    struct sec1_picture_line lines[12];
} pictures[] = {
    {WHOLE_KEY, NULL, FIRST_ROWS LAST_ROW "This is an EC private key (RFC 5915) on P-256.\n", 1, 8,
     {{1, 0, 2, 0, 0, 0}, {1, 2, 2, 1, 1, 0}, {1, 5, 2, 32, 1, 1}, {1, 39, 2, 0, 1, 0},
      {1, 41, 2, 8, 2, 0}, {1, 51, 2, 0, 1, 0}, {1, 53, 2, 66, 2, 1}, {3, 0, 0, 0, 0, 0}}},
    {WHOLE_KEY "0A", NULL,
     "   0 30 77           119  SEQUENCE\n"
     "   2 02 01             1    INTEGER 1\n"
     "   5 04 20            32    OCTET STRING, 32 bytes\n"
     "  39 A0 0A            10    [0]\n"
     "  41 06 08             8      OBJECT IDENTIFIER P-256 (1.2.840.10045.3.1.7)\n"
     "  51 A1 44            68    [1]\n" LAST_ROW
     " 121                   1  1 byte not drawn\n"
     "     ^ after the end of the root\n"
     "This is no EC private key (RFC 5915): see offset 121.\n"
     "If OpenSSL reads it, this writes it in DER:\n"
     "  openssl ec -inform DER -in FILE -outform DER -out key.der\n", 0, 12,
     {{1, 0, 2, 0, 0, 0}, {1, 2, 2, 1, 1, 0}, {1, 5, 2, 32, 1, 1}, {1, 39, 2, 0, 1, 0},
      {1, 41, 2, 8, 2, 0}, {1, 51, 2, 0, 1, 0}, {1, 53, 2, 66, 2, 1}, {1, 121, 0, 1, 0, 1},
      {2, 0, 0, 0, 0, 0}, {3, 0, 0, 0, 0, 0}, {3, 0, 0, 0, 0, 0}, {4, 0, 0, 0, 0, 0}}},
    {"", NULL, "The input is empty.\n", 0, 1, {{3, 0, 0, 0, 0, 0}}},
    {NULL, "hello", "This is text, and no PEM, hexadecimal or base64.\n", 0, 1,
     {{3, 0, 0, 0, 0, 0}}},
    {NULL, "00000000: 3077", "This begins as the output of xxd. If it is that, this draws it:\n"
     "  xxd -r FILE | sec1_dump\n", 0, 2, {{3, 0, 0, 0, 0, 0}, {4, 0, 0, 0, 0, 0}}},
    {NULL, "30:06:02:01:01:04:01:09",
     "hexadecimal: 8 bytes\n"
     "   0 30 06             6  SEQUENCE                     ECPrivateKey\n"
     "   2 02 01             1    INTEGER 1                  version\n"
     "   5 04 01             1    OCTET STRING, 1 byte       privateKey, not shown\n"
     "This is an EC private key (RFC 5915), with no curve named.\n", 1, 5,
     {{0, 0, 0, 8, 0, 0}, {1, 0, 2, 0, 0, 0}, {1, 2, 2, 1, 1, 0}, {1, 5, 2, 1, 1, 1},
      {3, 0, 0, 0, 0, 0}}},
};

static struct bytes input_of(const struct picture *picture)
{
    struct bytes written = {0};
    if (picture->bytes)
        return unhex(picture->bytes);
    written.len = strlen(picture->written);
    memcpy(written.data, picture->written, written.len);
    return written;
}

/* The picture is the same at every length of the buffer, which is unchanged if it is too short. */
static void expect_picture(const struct picture *picture, enum side side)
{
    struct bytes b = input_of(picture);
    size_t whole = strlen(picture->text);
    for (size_t room = 0; room <= whole + 2; room += room && room + 40 < whole ? 37 : 1) {
        size_t len = 777777, is_key = 777777, work = SEC1_PICTURE_ROOM(b.len, room);
        struct guarded in = map_input(b.data, b.len, side), memory = map_guarded(work, side);
        struct guarded out = map_guarded(room, side);
        memset(out.data, 0xEE, room);
        uint32_t status = sec1_picture_draw(in.data, b.len, 0, memory.data, work, (char *)out.data,
                                            room, &len, &is_key);
        EXPECT(len == whole && status == (room < whole ? SEC1_BUFFER : SEC1_OK));
        EXPECT(is_key == (status ? 0 : picture->is_key));
        EXPECT(status || memcmp(out.data, picture->text, whole) == 0);
        EXPECT(all_are(out.data + (status ? 0 : whole), room - (status ? 0 : whole), 0xEE));
        unmap(in);
        unmap(memory);
        unmap(out);
    }
}

/* The lines are the same at every length of the array, of which the first ones are stored. */
static void expect_lines(const struct picture *picture, enum side side)
{
    struct bytes b = input_of(picture);
    for (size_t room = 0; room <= picture->count + 1; room++) {
        size_t count = 777777, work = SEC1_PICTURE_ROOM(b.len, 0), size = room * sizeof *picture->lines;
        struct guarded in = map_input(b.data, b.len, side), memory = map_guarded(work, side);
        struct guarded out = map_guarded(size, side);
        struct sec1_picture_line *lines = (struct sec1_picture_line *)out.data;
        memset(out.data, 0xEE, size);
        uint32_t status = sec1_picture_lines(in.data, b.len, memory.data, work, lines, room, &count);
        EXPECT(count == picture->count && status == (room < count ? SEC1_BUFFER : SEC1_OK));
        for (size_t i = 0; i < room && i < count && i < 12; i++) {
            struct sec1_picture_line line = lines[i];
            if (line.kind == SEC1_LINE_HEADING) {
                /* What was decoded is in the memory at this place. */
                EXPECT(line.offset + line.content_len <= work && line.content_len == 8 &&
                       memcmp(memory.data + line.offset, "\x30\x06\x02\x01\x01\x04\x01\x09", 8) == 0);
                line.offset = 0;
            }
            EXPECT(memcmp(&line, &picture->lines[i], sizeof line) == 0);
        }
        EXPECT(room <= count || all_are(out.data + count * sizeof *lines, sizeof *lines, 0xEE));
        unmap(in);
        unmap(memory);
        unmap(out);
    }
}

static void test_pictures(void)
{
    for (size_t i = 0; i < sizeof pictures / sizeof *pictures; i++) {
        for (enum side side = AT_END; side <= AT_START; side++) {
            expect_picture(&pictures[i], side);
            expect_lines(&pictures[i], side);
        }
    }
    /* DER takes two bytes of memory beside the text's, and a text takes more. */
    struct bytes key = unhex(WHOLE_KEY), text = repeated('0', 64);
    uint8_t memory[1024];
    char out[600];
    size_t len = 777777, is_key = 777777, count = 777777;
    struct sec1_picture_line lines[16];
    EXPECT(sec1_picture_draw(key.data, key.len, 0, memory, sizeof out + 2, out, sizeof out, &len,
                             &is_key) == SEC1_OK && is_key == 1);
    EXPECT(sec1_picture_draw(key.data, key.len, 0, memory, sizeof out + 1, out, sizeof out, &len,
                             &is_key) == SEC1_BUFFER && len == 0 && is_key == 0);
    EXPECT(sec1_picture_draw(text.data, text.len, 0, memory, SEC1_PICTURE_ROOM(text.len, 0) - 1, NULL,
                             0, &len, &is_key) == SEC1_BUFFER && len == 0);
    EXPECT(sec1_picture_lines(key.data, key.len, memory, 2, lines, 16, &count) == SEC1_OK && count == 8);
    EXPECT(sec1_picture_lines(key.data, key.len, memory, 1, lines, 16, &count) == SEC1_BUFFER &&
           count == 0);
    EXPECT(sec1_picture_lines(text.data, text.len, memory, SEC1_PICTURE_ROOM(text.len, 0) - 1, lines,
                              16, &count) == SEC1_BUFFER && count == 0);
    /* With all contents: 32 bytes in two lines. */
    EXPECT(sec1_picture_draw(key.data, key.len, 1, memory, sizeof memory, NULL, 0, &len, &is_key) ==
               SEC1_BUFFER && len > strlen(pictures[0].text) + 150);
    /* By options: none, one level, and lines of JSON with the name of the file. */
    static const char level[] = "   0 30 77           119  SEQUENCE                     ECPrivateKey\n"
                                "This is an EC private key (RFC 5915) on P-256.\n";
    static const char json[] = "{\"bytes\":121,\"file\":\"a.der\",";
    struct sec1_picture_options options = {0};
    EXPECT(sec1_picture_show(key.data, key.len, &options, memory, sizeof memory, out, sizeof out, &len,
                             &is_key) == SEC1_OK && is_key == 1);
    EXPECT(len == strlen(pictures[0].text) && memcmp(out, pictures[0].text, len) == 0);
    EXPECT(sec1_picture_show(key.data, key.len, &options, memory, sizeof out + 1, out, sizeof out,
                             &len, &is_key) == SEC1_BUFFER && len == 0 && is_key == 0);
    options.levels = 1;
    EXPECT(sec1_picture_show(key.data, key.len, &options, memory, sizeof memory, out, sizeof out, &len,
                             &is_key) == SEC1_OK && is_key == 1);
    EXPECT(len == strlen(level) && memcmp(out, level, len) == 0);
    options.json = 1;
    options.file = (const uint8_t *)"a.der";
    options.file_len = 5;
    EXPECT(sec1_picture_show(key.data, key.len, &options, memory, sizeof memory, out, sizeof out, &len,
                             &is_key) == SEC1_OK && is_key == 1);
    EXPECT(len > strlen(json) && memcmp(out, json, strlen(json)) == 0 && out[len - 1] == '\n');
    EXPECT(sec1_picture_show(key.data, key.len, &options, memory, sizeof memory, NULL, 0, &count,
                             &is_key) == SEC1_BUFFER && count == len && is_key == 0);
    uint32_t (*draw)(const uint8_t *, size_t, const struct sec1_picture_options *, uint8_t *, size_t,
                     char *, size_t, size_t *, size_t *) = sec1_picture_show;
    EXPECT(draw(key.data, key.len, &options, memory, sizeof memory, out, len, &count, &is_key) ==
               SEC1_OK && count == len && is_key == 1);
}

/* ---- PEM */

struct pem {
    const char *text, *label;
    size_t line;
    uint32_t status;
    const char *bytes;
};

#define BEGIN(label) "-----BEGIN " label "-----\n"
#define END(label) "-----END " label "-----\n"
#define BLOCK(label, body) BEGIN(label) body "\n" END(label)

/* "foobar" and "f" are examples of RFC 4648 section 10. */
static const struct pem pems[] = {
    {BLOCK("A KEY", "Zm9vYmFy"), "A KEY", 1, SEC1_OK, "666F6F626172"},
    {BLOCK("A KEY", "Zm9\n vYm\t\r\nFy"), "A KEY", 1, SEC1_OK, "666F6F626172"},
    {"words\n" BLOCK("B", "Zg==") BLOCK("A", "Zg==") BLOCK("A", "Zm9v"), "A", 5, SEC1_OK, "66"},
    {"\xEF\xBB\xBF" BLOCK("A", "Zg=="), "A", 1, SEC1_OK, "66"},
    {BLOCK("A", ""), "A", 1, SEC1_OK, ""},
    {BLOCK("A", "Zg=="), "AB", 0, SEC1_PEM, ""},
    {BLOCK("AB", "Zg=="), "A", 0, SEC1_PEM, ""},
    {BLOCK("A", "Zg=="), "", 0, SEC1_PEM, ""},
    {"", "A", 0, SEC1_PEM, ""},
    {BEGIN("A") "Zg==\n", "A", 1, SEC1_PEM, ""},
    {BEGIN("A") "Zg==\n" END("B"), "A", 1, SEC1_PEM, ""},
    {BLOCK("A", "Zg=") BLOCK("A", "Zg=="), "A", 1, SEC1_PEM, ""},
    {BLOCK("A", "Zh=="), "A", 1, SEC1_PEM, ""},
    {BLOCK("A", "Zg==Zg=="), "A", 1, SEC1_PEM, ""},
    {BLOCK("A", "Z_8="), "A", 1, SEC1_PEM, ""},
    {BLOCK("A", "a: b\n\nZg=="), "A", 1, SEC1_PEM, ""},
    {BLOCK("A", "Proc-Type: 4,ENCRYPTED\n\nZg=="), "A", 1, SEC1_PEM, ""},
    {BLOCK("OPENSSH PRIVATE KEY", "Zg=="), "OPENSSH PRIVATE KEY", 1, SEC1_PEM, ""},
    {BLOCK("A", "Zg==") "\x01", "A", 1, SEC1_OK, "66"},
    {"\x01", "A", 0, SEC1_PEM, ""},
};

static void expect_pem(const struct pem *pem, enum side side)
{
    struct bytes wanted = unhex(pem->bytes);
    size_t text_len = strlen(pem->text), label_len = strlen(pem->label);
    /* What is no text and has no block needs two bytes. */
    size_t least = strcmp(pem->text, "\x01") ? SEC1_PEM_ROOM(text_len) : 2;
    struct guarded text = map_input(pem->text, text_len, side);
    struct guarded label = map_input(pem->label, label_len, side);
    for (size_t size = least - 1; size <= least + 2; size++) {
        size_t len = 777777, line = 777777;
        struct guarded room = map_guarded(size, side);
        memset(room.data, 0xEE, size);
        uint32_t status = sec1_pem_decode((const char *)text.data, text_len, (const char *)label.data,
                                          label_len, room.data, size, &len, &line);
        if (size < least) {
            EXPECT(status == SEC1_BUFFER && len == 0 && line == 0);
            EXPECT(all_are(room.data, size, 0xEE));
        } else {
            EXPECT(status == pem->status && len == wanted.len && line == pem->line);
            EXPECT(memcmp(room.data, wanted.data, wanted.len) == 0);
        }
        unmap(room);
    }
    unmap(text);
    unmap(label);
}

static void test_pem(void)
{
    for (size_t i = 0; i < sizeof pems / sizeof *pems; i++)
        for (enum side side = AT_END; side <= AT_START; side++)
            expect_pem(&pems[i], side);
}

/* ---- random bytes */

/* Bytes of small DER in no order, so that many of them are read far. */
static struct bytes draw_bytes(size_t most)
{
    static const uint8_t often[] = {0x30, 0x02, 0x01, 0x01, 0x04, 0x00, 0xA0,
                                    0x06, 0xA1, 0x03, 0x2A, 0x80, 0x81, 0x7F};
    struct bytes b = {0};
    b.len = draw((uint32_t)most + 1);
    for (size_t i = 0; i < b.len; i++)
        b.data[i] = draw(3) ? often[draw(sizeof often)] : (uint8_t)draw(256);
    return b;
}

static void test_random_bytes(void)
{
    enum { ROOM = 256 };
    struct guarded in = map_guarded(ROOM, AT_END), out = map_guarded(ROOM, AT_END);
    for (int i = 0; i < 300000; i++) {
        struct bytes b = draw_bytes(i % 2 ? 24 : 72);
        if (i % 5 == 0 && b.len > 7)
            memcpy(b.data, "\x30\x05\x02\x01\x01\x04\x00", 7), b.data[1] = (uint8_t)(b.len - 2);
        uint8_t *bytes = in.data + ROOM - b.len;
        memcpy(bytes, b.data, b.len);
        size_t len = 777777, elements;
        struct sec1_key_parts p;
        uint32_t status = sec1_key_read(bytes, b.len, &p);
        EXPECT(status <= SEC1_VALUE);
        if (status == SEC1_OK) {
            EXPECT(sec1_tree_check(bytes, b.len, &elements) == SEC1_OK);
            EXPECT(elements == 3 + 2 * p.curve.present + 2 * p.public_key.present);
            EXPECT(sec1_document_len(bytes, b.len, &len) == SEC1_OK && len == b.len);
            EXPECT(sec1_key_write(bytes + p.private_key.offset, p.private_key.len,
                                  bytes + p.curve.offset, p.curve.len, bytes + p.public_key.offset,
                                  p.public_key.len, p.public_key.present, out.data + ROOM - b.len,
                                  b.len, &len) == SEC1_OK);
            EXPECT(len == b.len && memcmp(out.data + ROOM - b.len, bytes, len) == 0);
        }
        uint8_t text[SEC1_IDENTIFIER_TEXT_MAX], content[SEC1_IDENTIFIER_CONTENT_MAX];
        if (to_text(bytes, b.len, text, sizeof text, &len) == SEC1_OK) {
            size_t again;
            EXPECT(from_text(text, len - 1, content, sizeof content, &again) == SEC1_OK);
            EXPECT(again == b.len && memcmp(content, bytes, again) == 0);
        }
        field = 28 + 4 * (unsigned)(i % 2);
        struct sec1_point_parts point;
        status = sec1_point_read(bytes, b.len, field, &point);
        EXPECT(status == SEC1_OK || status == SEC1_POINT_ENCODING);
        if (status == SEC1_OK && b.len > 1) {
            uint8_t form[133];
            EXPECT(compress(bytes, b.len, form, sizeof form, &len) == SEC1_OK && len == field + 1);
            EXPECT(memcmp(form + 1, bytes + point.x.offset, field) == 0);
        }
    }
    unmap(in);
    unmap(out);
}

int main(void)
{
    page_size = (size_t)sysconf(_SC_PAGESIZE);
    setvbuf(stdout, NULL, _IOLBF, 0);
    static const struct test {
        const char *name;
        void (*run)(void);
    } tests[] = {
        {"header", test_header},
        {"accepted keys", test_accepted_keys},
        {"refused keys", test_refused_keys},
        {"written keys", test_written_keys},
        {"long keys", test_long_keys},
        {"public keys", test_public_keys},
        {"written public keys", test_written_public_keys},
        {"containers", test_containers},
        {"written containers", test_written_containers},
        {"private keys in either form", test_any_keys},
        {"certificates", test_certificates},
        {"signatures", test_signatures},
        {"points", test_points},
        {"made points", test_made_points},
        {"identifiers", test_identifiers},
        {"hexadecimal texts", test_hexadecimal},
        {"curves", test_curves},
        {"elements", test_elements},
        {"first elements", test_first_elements},
        {"written elements", test_written_elements},
        {"long elements", test_long_elements},
        {"faults", test_faults},
        {"faults of public keys", test_public_key_faults},
        {"faults of containers", test_container_faults},
        {"faults of signatures", test_signature_faults},
        {"PEM", test_pem},
        {"pictures", test_pictures},
        {"random bytes", test_random_bytes},
    };
    unsigned tests_passed = 0, tests_failed = 0;
    for (size_t i = 0; i < sizeof tests / sizeof *tests; i++) {
        passed = failed = 0;
        tests[i].run();
        printf("%s: %lu checks hold, %lu don't\n", tests[i].name, passed, failed);
        failed ? tests_failed++ : tests_passed++;
    }
    printf("%u passed, %u failed\n", tests_passed, tests_failed);
    return tests_failed != 0;
}
