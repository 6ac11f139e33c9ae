/* A second reader, written from docs/FORMATS.md alone and apart from the crates: which status a
 * call has to return, and what it has to store. */
#include <sec1.h>
#include <string.h>

/* Bytes that are still to be read, by their beginning and their end in the input. */
struct rest {
    const uint8_t *data;
    size_t at, end;
};

/* The offset of the last refusal. */
static size_t fault_at;

static uint32_t refuse(uint32_t status, size_t at)
{
    fault_at = at;
    return status;
}

/* Refuses bytes that follow what was read. */
static uint32_t end_of(const struct rest *rest)
{
    return rest->at == rest->end ? (uint32_t)SEC1_OK : refuse(SEC1_TRAILING_DATA, rest->at);
}

struct element {
    uint8_t tag;
    size_t start, end; /* of the content */
};

/* Reads a tag byte and a length, whose content may end after the bytes around it. */
static uint32_t header_of(const uint8_t *data, size_t at, size_t end, int tag, struct element *e)
{
    size_t count, number = 0;
    if (at == end)
        return refuse(SEC1_TRUNCATED, at);
    e->tag = data[at];
    if (e->tag == 0 || (e->tag & 0x1F) == 0x1F || (tag >= 0 && e->tag != tag))
        return refuse(SEC1_TAG, at);
    if (end - at < 2)
        return refuse(SEC1_TRUNCATED, at + 1);
    if (data[at + 1] < 0x80) {
        e->start = at + 2;
        e->end = e->start + data[at + 1];
        return SEC1_OK;
    }
    count = data[at + 1] & 0x7F;
    if (count == 0 || count > 4)
        return refuse(SEC1_LENGTH, at + 1);
    if (end - at - 2 < count)
        return refuse(SEC1_TRUNCATED, at + 1);
    e->start = at + 2 + count;
    for (size_t i = at + 2; i < e->start; i++)
        number = number * 256 + data[i];
    if (data[at + 2] == 0 || number < 128 || number > 268435455)
        return refuse(SEC1_LENGTH, at + 1);
    e->end = e->start + number;
    return SEC1_OK;
}

/* Reads an element with this tag that ends inside what is left, with bytes behind it. */
static uint32_t element_of(struct rest *rest, int tag, struct element *e)
{
    uint32_t status = header_of(rest->data, rest->at, rest->end, tag, e);
    if (status == SEC1_OK && e->end > rest->end)
        status = refuse(SEC1_TRUNCATED, rest->at + 1);
    if (status == SEC1_OK)
        rest->at = e->end;
    return status;
}

static int begins_with(struct rest rest, uint8_t byte)
{
    return rest.at < rest.end && rest.data[rest.at] == byte;
}

/* ---- identifiers */

struct arcs {
    size_t count;
    uint32_t arc[64];
};

/* The most bytes of an identifier's content. */
enum { LONGEST_IDENTIFIER = 39 };

/* Whether the bytes are the content of an identifier. Its arcs are stored. */
static int is_identifier(const uint8_t *bytes, size_t len, struct arcs *arcs)
{
    uint64_t number = 0;
    int inside = 0;
    arcs->count = 0;
    if (len == 0 || len > LONGEST_IDENTIFIER)
        return 0;
    for (size_t i = 0; i < len; i++) {
        if (!inside && bytes[i] == 0x80)
            return 0;
        number = number << 7 | (bytes[i] & 0x7F);
        if (number > 0xFFFFFFFF)
            return 0;
        inside = bytes[i] >= 0x80;
        if (inside)
            continue;
        if (arcs->count == 0) {
            arcs->arc[0] = number < 40 ? 0 : number < 80 ? 1 : 2;
            number -= 40 * arcs->arc[0];
            arcs->count = 1;
        }
        arcs->arc[arcs->count++] = (uint32_t)number;
        number = 0;
    }
    return !inside;
}

static size_t put_number(char *text, uint32_t number)
{
    char digits[10];
    size_t count = 0;
    do
        digits[count++] = (char)('0' + number % 10);
    while ((number /= 10) != 0);
    for (size_t i = 0; i < count; i++)
        text[i] = digits[count - 1 - i];
    return count;
}

/* Writes the text of these arcs, and a byte 0. Returns the length of both. */
static size_t put_text(char *text, const struct arcs *arcs)
{
    size_t len = 0;
    for (size_t i = 0; i < arcs->count; i++) {
        if (i)
            text[len++] = '.';
        len += put_number(text + len, arcs->arc[i]);
    }
    text[len] = 0;
    return len + 1;
}

/* Writes the content of the identifier with this text. Returns its length, 0 if it is no text. */
static size_t put_content(uint8_t content[48], const char *text, size_t text_len)
{
    uint64_t arcs[200];
    size_t count = 0, len = 0, at = 0;
    if (text_len > 200)
        return 0;
    for (;;) {
        uint64_t number = 0;
        size_t start = at;
        while (at < text_len && text[at] >= '0' && text[at] <= '9' && at - start < 11)
            number = number * 10 + (uint64_t)(text[at++] - '0');
        if (at == start || (at - start > 1 && text[start] == '0') || number > 0xFFFFFFFF)
            return 0;
        arcs[count++] = number;
        if (at == text_len)
            break;
        if (text[at++] != '.')
            return 0;
    }
    if (count < 2 || arcs[0] > 2 || (arcs[0] < 2 && arcs[1] > 39))
        return 0;
    arcs[1] += 40 * arcs[0];
    for (size_t i = 1; i < count; i++) {
        int digits = 1;
        if (arcs[i] > 0xFFFFFFFF)
            return 0;
        while (arcs[i] >> (7 * digits))
            digits++;
        if (len + (size_t)digits > LONGEST_IDENTIFIER)
            return 0;
        while (digits--)
            content[len++] = (uint8_t)((digits ? 0x80 : 0) | (arcs[i] >> (7 * digits) & 0x7F));
    }
    return len;
}

/* ---- keys */

static struct sec1_part place(size_t start, size_t end)
{
    struct sec1_part part;
    part.offset = start;
    part.len = end - start;
    part.present = 1;
    return part;
}

/* Reads the field [0]. */
static uint32_t parameters_of(const uint8_t *data, struct element field, struct sec1_part *curve)
{
    struct rest inside = {data, field.start, field.end};
    struct element e;
    struct arcs arcs;
    uint32_t status = element_of(&inside, 0x06, &e);
    if (status)
        return status;
    if (!is_identifier(data + e.start, e.end - e.start, &arcs))
        return refuse(SEC1_VALUE, e.start);
    *curve = place(e.start, e.end);
    return end_of(&inside);
}

/* Reads the field [1]. */
static uint32_t public_key_of(const uint8_t *data, struct element field, struct sec1_part *key)
{
    struct rest inside = {data, field.start, field.end};
    struct element e;
    uint32_t status = element_of(&inside, 0x03, &e);
    unsigned unused;
    if (status)
        return status;
    if (e.start == e.end)
        return refuse(SEC1_VALUE, e.start);
    unused = data[e.start];
    if (unused > 7 || (unused && (e.end - e.start < 2 || data[e.end - 1] & ((1u << unused) - 1))))
        return refuse(SEC1_VALUE, e.start);
    *key = place(e.start + 1, e.end);
    if ((status = end_of(&inside)))
        return status;
    return unused ? refuse(SEC1_VALUE, e.start) : (uint32_t)SEC1_OK;
}

static uint32_t key_of(const uint8_t *data, size_t len, struct sec1_key_parts *parts)
{
    struct rest outside = {data, 0, len}, inside = {data, 0, 0};
    struct element e;
    uint32_t status = element_of(&outside, 0x30, &e);
    memset(parts, 0, sizeof *parts);
    if (status)
        return status;
    inside.at = e.start;
    inside.end = e.end;
    if ((status = element_of(&inside, 0x02, &e)))
        return status;
    if (e.end - e.start != 1 || data[e.start] != 1)
        return refuse(SEC1_VALUE, e.start);
    if ((status = element_of(&inside, 0x04, &e)))
        return status;
    parts->private_key = place(e.start, e.end);
    if (begins_with(inside, 0xA0)
        && ((status = element_of(&inside, 0xA0, &e))
            || (status = parameters_of(data, e, &parts->curve))))
        return status;
    if (begins_with(inside, 0xA1)
        && ((status = element_of(&inside, 0xA1, &e))
            || (status = public_key_of(data, e, &parts->public_key))))
        return status;
    return (status = end_of(&inside)) ? status : end_of(&outside);
}

/* Writes a tag byte and a length. Returns their length. */
static size_t prepend_header(uint8_t *out, uint8_t tag, size_t len)
{
    int count = len < 0x80 ? 0 : len < 0x100 ? 1 : len < 0x10000 ? 2 : len < 0x1000000 ? 3 : 4;
    out[0] = tag;
    out[1] = (uint8_t)(count ? 0x80 + count : (int)len);
    for (int i = 0; i < count; i++)
        out[2 + i] = (uint8_t)(len >> 8 * (count - 1 - i));
    return 2 + (size_t)count;
}

/* Writes an element around what is at the beginning of out. Returns the length of both. */
static size_t wrap(uint8_t *out, uint8_t tag, size_t len)
{
    uint8_t header[6];
    size_t header_len = prepend_header(header, tag, len);
    memmove(out + header_len, out, len);
    memcpy(out, header, header_len);
    return header_len + len;
}

/* Writes an element with this content. Returns its length. */
static size_t put(uint8_t *out, uint8_t tag, const uint8_t *content, size_t len)
{
    if (len)
        memcpy(out, content, len);
    return wrap(out, tag, len);
}

/* ---- trees and documents */

static uint32_t tree_of(struct rest *rest, int level, size_t *elements)
{
    struct element e;
    uint32_t status = element_of(rest, -1, &e);
    if (status)
        return status;
    ++*elements;
    if (e.tag & 0x20) {
        struct rest inside = {rest->data, e.start, e.end};
        while (inside.at < inside.end)
            if (level == 64)
                return refuse(SEC1_DEPTH, inside.at);
            else if ((status = tree_of(&inside, level + 1, elements)))
                return status;
    }
    return SEC1_OK;
}

static uint32_t check_tree_of(const uint8_t *data, size_t len, size_t *elements)
{
    struct rest rest = {data, 0, len};
    uint32_t status = tree_of(&rest, 1, elements);
    return status ? status : end_of(&rest);
}

static uint32_t document_of(const uint8_t *data, size_t len, size_t *announced)
{
    struct element e;
    uint32_t status = header_of(data, 0, len, -1, &e);
    *announced = 0;
    if (status)
        return status;
    *announced = e.end;
    return len < e.end ? SEC1_TRUNCATED : len > e.end ? SEC1_TRAILING_DATA : SEC1_OK;
}

/* ---- points */

static uint32_t point_of(const uint8_t *data, size_t len, size_t n, struct sec1_point_parts *parts)
{
    size_t coordinates;
    memset(parts, 0, sizeof *parts);
    if (n == 0 || n > 66)
        return SEC1_FIELD_LENGTH;
    if (len == 0 || data[0] > 7 || data[0] == 1)
        return SEC1_POINT_ENCODING;
    coordinates = data[0] == 0 ? 0 : data[0] == 4 || data[0] >= 6 ? 2 : 1;
    if (len != 1 + coordinates * n || (data[0] >= 6 && data[len - 1] % 2 != data[0] % 2))
        return SEC1_POINT_ENCODING;
    parts->tag = data[0];
    if (coordinates >= 1)
        parts->x = place(1, 1 + n);
    if (coordinates == 2)
        parts->y = place(1 + n, 1 + 2 * n);
    return SEC1_OK;
}

/* Writes the compressed or the hybrid form of a point. Returns its length. */
static size_t put_form(uint8_t *out, const uint8_t *point, size_t len, int compressed)
{
    memcpy(out, point, len);
    if (point[0] == 4 || point[0] >= 6) {
        uint8_t parity = point[len - 1] % 2;
        if (compressed) {
            out[0] = (uint8_t)(2 + parity);
            return 1 + (len - 1) / 2;
        }
        out[0] = (uint8_t)(6 + parity);
    }
    return len;
}
