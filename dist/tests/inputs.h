/* Inputs that look random: bytes, texts, points, and records with some damage. */
#include "draw.h"
#include "records.h"

static void draw_bytes(uint8_t *bytes, size_t len)
{
    for (size_t i = 0; i < len; i++)
        bytes[i] = (uint8_t)draw(256);
}

static size_t draw_soup(uint8_t *out)
{
    static const uint8_t often[] = {0x30, 0x02, 0x01, 0x01, 0x04, 0x00, 0xA0,
                                    0x06, 0xA1, 0x03, 0x2A, 0x80, 0x81, 0x7F};
    static const uint8_t greatest[] = {0x30, 0x84, 0x0F, 0xFF, 0xFF, 0xFF};
    static const uint8_t above[] = {0x30, 0x84, 0x10, 0x00, 0x00, 0x00};
    size_t len = draw(draw(2) ? 12 : 72);
    for (size_t i = 0; i < len; i++)
        out[i] = draw(3) ? often[draw(sizeof often)] : (uint8_t)draw(256);
    if (len >= sizeof above && draw(16) == 0)
        memcpy(out, draw(2) ? greatest : above, sizeof above);
    return len;
}

/* Contents at a limit: numbers of 8 and of 9 bits in two bytes, arcs of 2^32 - 1 and of 2^32. */
static size_t draw_limit(uint8_t *out)
{
    static const uint8_t contents[][7] = {
        {2, 0x00, 0x7F},
        {2, 0x00, 0x80},
        {2, 0xFF, 0x7F},
        {2, 0xFF, 0x80},
        {6, 0x2A, 0x8F, 0xFF, 0xFF, 0xFF, 0x7F},
        {6, 0x2A, 0x90, 0x80, 0x80, 0x80, 0x00},
        {5, 0x90, 0x80, 0x80, 0x80, 0x00},
    };
    const uint8_t *content = contents[draw(7)];
    memcpy(out, content + 1, content[0]);
    return content[0];
}

static size_t draw_content(uint8_t *out)
{
    if (draw(16) == 0)
        return draw_limit(out);
    size_t len = draw(8) ? 1 + draw(10) : draw(44);
    for (size_t i = 0; i < len; i++)
        out[i] = (uint8_t)(draw(3) ? draw(128) : draw(256));
    if (len && draw(8))
        out[len - 1] &= 0x7F;
    return len;
}

static size_t draw_text(uint8_t *out)
{
    static const uint32_t often[] = {0, 1, 2, 39, 40, 47, 48, 127, 128, 4294967215u, 4294967295u};
    struct arcs arcs;
    arcs.count = draw(8) ? 1 + draw(12) : draw(45);
    for (size_t i = 0; i < arcs.count; i++)
        arcs.arc[i] = i == 0 ? draw(4) : i == 1 ? draw(50) : draw(2) ? draw(300) : often[draw(11)];
    size_t len = put_text((char *)out, &arcs) - 1;
    if (len && draw(3) == 0)
        out[draw((uint32_t)len)] = (uint8_t) ".0129-+ \xC3"[draw(9)];
    return len;
}

static size_t draw_point(uint8_t *out, size_t n)
{
    uint8_t tag = (uint8_t)draw(draw(8) ? 8 : 256);
    size_t len = tag == 0 ? 1 : 1 + (tag == 4 || tag >= 6 ? 2 : 1) * n;
    memset(out, (int)draw(3), len);
    if (draw(2))
        draw_bytes(out, len);
    else
        out[draw((uint32_t)len)] = (uint8_t)draw(256);
    out[0] = tag;
    return draw(8) ? len : len - 1 + draw(3);
}

/* A key that names the curve with this OBJECT IDENTIFIER, if there is one. */
static size_t draw_key_on(uint8_t *out, const uint8_t *curve, size_t curve_len)
{
    static const uint8_t lengths[] = {0, 1, 28, 32, 48, 66, 65, 97, 122, 123, 133, 200};
    uint8_t part[512];
    size_t len = put(out, 0x02, (const uint8_t *)"\x01", 1), part_len = lengths[draw(12)];
    draw_bytes(part, part_len);
    len += put(out + len, 0x04, part, part_len);
    if (draw(4)) {
        part_len = wrap(part, 0x06, draw_content(part));
        if (curve_len && draw(8))
            memcpy(part, curve, part_len = curve_len);
        len += put(out + len, 0xA0, part, part_len);
    }
    if (draw(4)) {
        part_len = 1 + lengths[draw(12)];
        draw_bytes(part, part_len);
        part[0] = draw(8) ? 0 : (uint8_t)draw(9);
        if (part[0] && draw(2))
            part[part_len - 1] = 0;
        part_len = wrap(part, 0x03, part_len);
        if (draw(16) == 0)
            part[part_len++] = 0;
        len += put(out + len, 0xA1, part, part_len);
    }
    return wrap(out, 0x30, len);
}

static size_t draw_key(uint8_t *out)
{
    return draw_key_on(out, NULL, 0);
}

/* Elements inside one another and beside one another. */
static size_t draw_tree(uint8_t *out)
{
    size_t len = draw(4), levels = draw(4) ? draw(8) : 58 + draw(10);
    draw_bytes(out, len);
    len = wrap(out, draw(2) ? 0x04 : 0x30, len);
    for (size_t i = 0; i < levels && len < 300; i++) {
        if (draw(4) == 0) {
            memcpy(out + len, "\x05\x00", 2);
            len += 2;
        }
        len = wrap(out, draw(2) ? 0x30 : 0xA1, len);
    }
    return len;
}

/* A signature, whose numbers have a zero in front if they need one, and now and then another. */
static size_t draw_signature(uint8_t *out)
{
    size_t len = 0;
    for (int number = 0; number < 2; number++) {
        uint8_t content[80] = {0};
        size_t zeros = 0, digits = draw(8) ? 28 + draw(5) : draw(68);
        draw_bytes(content + 8, digits);
        if (digits == 0 || content[8] >= 0x80 || draw(16) == 0)
            zeros = draw(16) ? 1 : draw(3);
        len += put(out + len, 0x02, content + 8 - zeros, zeros + digits);
    }
    return wrap(out, 0x30, len);
}

/* ---- public keys, containers and certificates */

/* An OBJECT IDENTIFIER for a curve: one of the table more often than not. */
static size_t draw_curve(uint8_t *out)
{
    static const uint8_t sec[] = {6, 7, 8, 9, 10, 28, 29, 30, 31, 32, 33, 34, 35, 0, 1, 36};
    size_t len = 8;
    memcpy(out, "\x2A\x86\x48\xCE\x3D\x03\x01", 7);
    out[7] = (uint8_t)draw(9);
    switch (draw(4)) {
    case 0:
        memcpy(out, "\x2B\x81\x04\x00", 4);
        out[4] = sec[draw(sizeof sec)];
        len = 5;
        break;
    case 1:
        memcpy(out, "\x2B\x24\x03\x03\x02\x08\x01\x01", 8);
        out[8] = (uint8_t)draw(16);
        len = 9;
        break;
    default: break;
    }
    return wrap(out, 0x06, len);
}

/* An algorithm: id-ecPublicKey with this curve more often than not. */
static size_t draw_algorithm(uint8_t *out, const uint8_t *curve, size_t curve_len)
{
    static const uint8_t key[] = {0x2A, 0x86, 0x48, 0xCE, 0x3D, 0x02, 0x01};
    static const uint8_t signature[] = {0x2A, 0x86, 0x48, 0xCE, 0x3D, 0x04, 0x03, 0x02};
    size_t len = draw(8) ? put(out, 0x06, key, sizeof key)
                         : put(out, 0x06, signature, draw(2) ? sizeof signature : 7);
    switch (draw(12)) {
    case 0: break;
    case 1: len += put(out + len, 0x05, NULL, 0); break;
    case 2: len += draw_soup(out + len); break;
    default:
        memcpy(out + len, curve, curve_len);
        len += curve_len;
        break;
    }
    return wrap(out, 0x30, len);
}

/* A BIT STRING with this tag: the encoding of a point, and mostly no unused bits. */
static size_t draw_bits(uint8_t *out, uint8_t tag, size_t field)
{
    size_t len = 1 + draw_point(out + 1, field);
    out[0] = draw(16) ? 0 : (uint8_t)draw(9);
    if (out[0] && draw(2))
        out[len - 1] = 0;
    return wrap(out, tag, len);
}

static size_t draw_info(uint8_t *out)
{
    uint8_t curve[16];
    size_t curve_len = draw_curve(curve), field = curve_field(curve + 2, curve_len - 2);
    size_t len = draw_algorithm(out, curve, curve_len);
    len += draw_bits(out + len, 0x03, field && draw(16) ? field : draw(67));
    return wrap(out, 0x30, len);
}

/* A SEQUENCE of an identifier and an element with this tag. */
static size_t draw_pair(uint8_t *out, uint8_t tag)
{
    size_t len = wrap(out, 0x06, draw_content(out)), value_len = draw(6);
    draw_bytes(out + len, value_len);
    return wrap(out, 0x30, len + wrap(out + len, tag, value_len));
}

/* Up to two of them with this tag around them, in ascending order more often than not. */
static size_t draw_set(uint8_t *out, uint8_t tag, uint8_t value_tag)
{
    uint8_t pairs[2][128] = {{0}};
    size_t lens[2], len = 0, next;
    lens[0] = draw_pair(pairs[0], value_tag);
    lens[1] = draw(8) ? draw_pair(pairs[1], value_tag) : 0;
    next = draw(8) ? memcmp(pairs[0], pairs[1], sizeof pairs[0]) > 0 : draw(2);
    for (uint32_t count = draw(3); count; count--) {
        memcpy(out + len, pairs[next], lens[next]);
        len += lens[next];
        next = 1 - next;
    }
    return wrap(out, tag, len);
}

static size_t draw_container(uint8_t *out)
{
    uint8_t curve[16], version = (uint8_t)draw(draw(16) ? 2 : 4);
    size_t curve_len = draw_curve(curve), len = put(out, 0x02, &version, 1);
    len += draw_algorithm(out + len, curve, curve_len);
    len += wrap(out + len, 0x04, draw_key_on(out + len, curve, curve_len));
    if (draw(3) == 0)
        len += draw_set(out + len, 0xA0, 0x31);
    if (draw(3) == 0)
        len += draw_bits(out + len, 0x81, draw(67));
    return wrap(out, 0x30, len);
}

static size_t draw_name(uint8_t *out)
{
    size_t len = 0;
    for (uint32_t sets = draw(3); sets; sets--)
        len += draw_set(out + len, 0x31, draw(2) ? 0x0C : 0x13);
    return wrap(out, 0x30, len);
}

/* A time, which is one that there is more often than not. */
static size_t draw_time(uint8_t *out)
{
    static const char *const times[] = {
        "260101120000Z",     "491231235959Z",    "500228000000Z",   "20000229115959.5Z",
        "20500101000000Z",   "99991231235959Z",  "240229000000Z",   "260229120000Z",
        "20260431120000Z",   "19000229000000Z",  "20260101120000",  "20260101120000.50Z",
        "2026010112000000Z", "20260101240000Z",  "261301000000Z",   "20260101006000Z",
        "260931120000Z",     "20260931120000Z",  "260101120060Z",   "20260101120060Z",
    };
    const char *time = times[draw(draw(4) ? 7 : sizeof times / sizeof *times)];
    size_t len = strlen(time);
    memcpy(out, time, len);
    return wrap(out, (len == 13) == (draw(16) > 0) ? 0x17 : 0x18, len);
}

/* Up to two extensions, inside the field [3]. */
static size_t draw_extensions(uint8_t *out)
{
    size_t len = 0;
    for (uint32_t count = draw(3); count; count--) {
        uint8_t row[128];
        size_t row_len = wrap(row, 0x06, draw_content(row));
        if (draw(2)) {
            uint8_t critical = (uint8_t)(draw(4) ? 0xFF : draw(256));
            row_len += put(row + row_len, 0x01, &critical, 1);
        }
        row_len += wrap(row + row_len, 0x04, draw_content(row + row_len));
        len += put(out + len, 0x30, row, row_len);
    }
    return wrap(out, 0xA3, wrap(out, 0x30, len));
}

static size_t draw_tbs(uint8_t *out, const uint8_t *signature, size_t signature_len)
{
    size_t len = 0, times_len;
    if (draw(4)) {
        out[0] = (uint8_t)(1 + draw(draw(8) ? 2 : 3));
        len = wrap(out, 0xA0, wrap(out, 0x02, 1));
    }
    len += wrap(out + len, 0x02, draw_content(out + len));
    memcpy(out + len, signature, signature_len);
    len += signature_len;
    len += draw_name(out + len);
    times_len = draw_time(out + len);
    times_len += draw_time(out + len + times_len);
    len += wrap(out + len, 0x30, times_len);
    len += draw_name(out + len);
    len += draw_info(out + len);
    for (uint8_t tag = 0x81; tag <= 0x82; tag++)
        if (draw(6) == 0)
            len += draw_bits(out + len, tag, draw(8));
    if (draw(3))
        len += draw_extensions(out + len);
    return wrap(out, 0x30, len);
}

static size_t draw_certificate(uint8_t *out)
{
    uint8_t signature[128], curve[16];
    size_t signature_len = draw_algorithm(signature, curve, draw_curve(curve));
    size_t len = draw_tbs(out, signature, signature_len);
    memcpy(out + len, signature, signature_len);
    len += signature_len;
    len += draw_bits(out + len, 0x03, draw(67));
    return wrap(out, 0x30, len);
}

static size_t damage(uint8_t *bytes, size_t len)
{
    for (uint32_t times = draw(3); times && len; times--) {
        size_t at = draw((uint32_t)(draw(2) || len < 16 ? len : 16));
        switch (draw(6)) {
        case 0: bytes[at] ^= (uint8_t)(1 << draw(8)); break;
        case 1: bytes[at] = (uint8_t)draw(256); break;
        case 2:
            memmove(bytes + at, bytes + at + 1, len - at - 1);
            len--;
            break;
        case 3:
            memmove(bytes + at + 1, bytes + at, len - at);
            bytes[at] = (uint8_t)draw(256);
            len++;
            break;
        case 4: len = at; break;
        default: bytes[len++] = (uint8_t)draw(256); break;
        }
    }
    return len;
}
