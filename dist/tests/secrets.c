/* Reads and writes private keys whose private bytes valgrind takes for undefined. It reports each
 * branch and each address that depends on one, in the library and here: the statuses, lengths and
 * places that the calls give are looked at here, and so mustn't depend on one either. Under
 * tests/secrets.sh; the last line counts the calls. */
#include <sec1.h>
#include <stdio.h>
#include <stdlib.h>
#include <string.h>
#include <valgrind/memcheck.h>

enum { MOST = 600, LONGEST = 300, TEXT = 16000, LINES = 60 };

static unsigned long calls, wrong;

/* Counts a call, and what it should give. */
static void expect(int holds, const char *what, size_t len)
{
    calls++;
    if (!holds) {
        wrong++;
        printf("FAILED: %s, private key of %zu bytes\n", what, len);
    }
}

struct bytes {
    uint8_t data[MOST];
    size_t len;
};

/* The content of the identifier of P-256, and a public key of its length. */
static const uint8_t curve[] = {0x2A, 0x86, 0x48, 0xCE, 0x3D, 3, 1, 7};
static const uint8_t info_start[] = {2, 1, 0, 0x30, 19, 6, 7, 0x2A, 0x86, 0x48, 0xCE, 0x3D, 2, 1,
                                     6, 8, 0x2A, 0x86, 0x48, 0xCE, 0x3D, 3, 1, 7};
static const uint8_t public_key[133] = {4};

/* Writes the element with this tag and this content, by the library, behind what is there. */
static void append(struct bytes *out, size_t tag, const uint8_t *content, size_t content_len)
{
    size_t len;
    uint32_t status = sec1_element_write(tag, content, content_len, out->data + out->len,
                                         MOST - out->len, &len);
    expect(status == 0, "sec1_element_write", content_len);
    out->len += len;
}

/* The calls that draw, without private contents, with memory for a text as long as the input. In
 * bytes that are no whole key or container they look for PEM, and so at each byte. */
static void draw(const struct bytes *input, size_t is_whole_key, size_t private_len)
{
    static uint8_t room[SEC1_PICTURE_ROOM(MOST, TEXT)];
    static char text[TEXT];
    static struct sec1_picture_line lines[LINES];
    struct sec1_picture_options options = {0};
    size_t len, is_key;
    expect(sec1_picture_draw(input->data, input->len, 0, room, sizeof room, text, TEXT, &len,
                             &is_key) == 0 &&
               is_key == is_whole_key && VALGRIND_CHECK_MEM_IS_DEFINED(text, len) == 0,
           "sec1_picture_draw", private_len);
    expect(sec1_picture_write(input->data, input->len, 0, 1, 0, 0, curve, sizeof curve, room,
                              sizeof room, text, TEXT, &len, &is_key) == 0 &&
               is_key == is_whole_key && VALGRIND_CHECK_MEM_IS_DEFINED(text, len) == 0,
           "sec1_picture_write, JSON", private_len);
    options.levels = 1;
    expect(sec1_picture_show(input->data, input->len, &options, room, sizeof room, text, TEXT,
                             &len, &is_key) == 0 &&
               is_key == is_whole_key && VALGRIND_CHECK_MEM_IS_DEFINED(text, len) == 0,
           "sec1_picture_show, one level", private_len);
    expect(sec1_picture_lines(input->data, input->len, room, sizeof room, lines, LINES, &len) ==
                   0 &&
               VALGRIND_CHECK_MEM_IS_DEFINED(lines, len * sizeof *lines) == 0,
           "sec1_picture_lines", private_len);
}

/* The calls that read a key, over its bytes and over each of their beginnings. */
static void read_key(const struct bytes *key, size_t private_len)
{
    struct sec1_key_parts parts;
    size_t cut, number, header, content;
    for (cut = 0; cut < key->len; cut += 1 + key->len / 40) {
        expect(sec1_key_read(key->data, cut, &parts) == SEC1_TRUNCATED, "a cut key", private_len);
        expect(sec1_key_fault_at(key->data, cut, &number) == SEC1_TRUNCATED && number <= cut,
               "the fault of a cut key", private_len);
        expect(sec1_key_read_at(key->data, cut, &parts, &number) == SEC1_TRUNCATED &&
                   number <= cut,
               "a cut key and its fault", private_len);
        expect(sec1_tree_check(key->data, cut, &number) == SEC1_TRUNCATED, "a cut tree",
               private_len);
        expect(sec1_tree_fault_at(key->data, cut, &number) == SEC1_TRUNCATED && number <= cut,
               "the fault of a cut tree", private_len);
    }
    expect(sec1_key_read(key->data, key->len, &parts) == 0 &&
               parts.private_key.len == private_len && parts.curve.offset < key->len &&
               parts.public_key.offset < key->len,
           "sec1_key_read", private_len);
    expect(sec1_private_key_read(key->data, key->len, &parts) == 0 &&
               parts.private_key.len == private_len,
           "sec1_private_key_read", private_len);
    expect(sec1_private_key_fault_at(key->data, key->len, &number) == 0,
           "sec1_private_key_fault_at", private_len);
    expect(sec1_private_key_fault_at(key->data, key->len - 1, &number) == SEC1_TRUNCATED &&
               number < key->len,
           "the fault of a cut private key", private_len);
    expect(sec1_key_fault_at(key->data, key->len, &number) == 0, "sec1_key_fault_at", private_len);
    expect(sec1_key_read_at(key->data, key->len, &parts, &number) == 0 &&
               parts.private_key.len == private_len,
           "sec1_key_read_at", private_len);
    expect(sec1_tree_check(key->data, key->len, &number) == 0 && number >= 3, "sec1_tree_check",
           private_len);
    expect(sec1_tree_fault_at(key->data, key->len, &number) == 0, "sec1_tree_fault_at",
           private_len);
    expect(sec1_document_len(key->data, key->len, &number) == 0 && number == key->len,
           "sec1_document_len", private_len);
    expect(sec1_element_read(key->data, key->len, &header, &content) == 0 &&
               header + content == key->len,
           "sec1_element_read", private_len);
}

/* Changes the byte at this offset, and expects the refusal of a private key at another. */
static void find_fault(struct bytes container, size_t at, uint8_t byte, uint32_t status,
                       size_t fault_at, size_t private_len)
{
    size_t number = 0;
    container.data[at] = byte;
    expect(sec1_private_key_fault_at(container.data, container.len, &number) == status &&
               number == fault_at,
           "sec1_private_key_fault_at of a container", private_len);
}

/* Where its container is refused: cut, with another tag in the key, and with P-192 in its algorithm
 * where the key names P-256. */
static void find_faults(const struct bytes *container,
                        const struct sec1_private_key_info_parts *parts, const struct bytes *key,
                        size_t private_len)
{
    struct sec1_key_parts inside;
    struct bytes cut = *container;
    size_t last = parts->curve.offset + parts->curve.len - 1, number;
    size_t version = parts->key.offset + (key->data[1] < 0x80 ? 2 : key->data[1] - 0x80 + 2u);
    expect(sec1_private_key_fault_at(container->data, container->len, &number) == 0,
           "sec1_private_key_fault_at of a container", private_len);
    cut.len--;
    find_fault(cut, 0, 0x30, SEC1_TRUNCATED, 1, private_len);
    find_fault(*container, version, 5, SEC1_TAG, version, private_len);
    expect(sec1_key_read(key->data, key->len, &inside) == 0, "the key inside", private_len);
    if (inside.curve.present)
        find_fault(*container, last, 1, SEC1_OTHER_CURVE, parts->key.offset + inside.curve.offset,
                   private_len);
}

/* The calls that read its container, of version 0 or 1. */
static void read_container(const struct bytes *key, size_t version, size_t private_len)
{
    struct bytes content = {{0}, sizeof info_start}, container = {{0}, 0};
    struct sec1_private_key_info_parts parts;
    struct sec1_key_parts key_parts;
    size_t number;
    memcpy(content.data, info_start, sizeof info_start);
    content.data[2] = (uint8_t)version;
    append(&content, 4, key->data, key->len);
    if (version == 1) {
        static const uint8_t bits[] = {0, 4, 1, 2};
        append(&content, 0x81, bits, sizeof bits);
    }
    append(&container, 0x30, content.data, content.len);
    expect(sec1_private_key_info_read(container.data, container.len, &parts) == 0 &&
               parts.key.len == key->len && parts.curve.len == sizeof curve,
           "sec1_private_key_info_read", private_len);
    expect(sec1_private_key_info_read(container.data, container.len - 1, &parts) ==
               SEC1_TRUNCATED,
           "a cut container", private_len);
    expect(sec1_private_key_info_fault_at(container.data, container.len, &number) == 0,
           "sec1_private_key_info_fault_at", private_len);
    expect(sec1_private_key_info_fault_at(container.data, container.len - 1, &number) ==
                   SEC1_TRUNCATED && number < container.len,
           "the fault of a cut container", private_len);
    expect(sec1_private_key_read(container.data, container.len, &key_parts) == 0 &&
               key_parts.private_key.len == private_len && key_parts.curve.len == sizeof curve,
           "sec1_private_key_read of a container", private_len);
    expect(sec1_private_key_read(container.data, container.len - 1, &key_parts) == SEC1_TRUNCATED,
           "a cut container, read as a private key", private_len);
    expect(sec1_tree_check(container.data, container.len, &number) == 0, "a container's tree",
           private_len);
    draw(&container, 0, private_len);
    find_faults(&container, &parts, key, private_len);
}

/* Writes a key with these parts by both calls, and reads it. Its private bytes are undefined. */
static void write_key(const uint8_t *private_key, size_t private_len, size_t curve_len,
                      size_t public_len)
{
    struct bytes key = {{0}, 0}, other = {{0}, 0};
    struct sec1_key given = {0};
    size_t len, room;
    uint32_t status;
    given.private_key = private_key;
    given.private_key_len = private_len;
    given.curve = curve;
    given.curve_len = curve_len;
    given.public_key = public_key;
    given.public_key_len = public_len;
    given.has_public_key = public_len != 0;
    expect(sec1_key_len(private_key, private_len, curve, curve_len, public_key, public_len,
                        public_len != 0, &len) == 0,
           "sec1_key_len", private_len);
    expect(sec1_key_len_of(&given, &room) == 0 && room == len, "sec1_key_len_of", private_len);
    status = sec1_key_write(private_key, private_len, curve, curve_len, public_key, public_len,
                            public_len != 0, key.data, MOST, &key.len);
    expect(status == 0 && key.len == len, "sec1_key_write", private_len);
    expect(sec1_key_write_of(&given, other.data, len, &other.len) == 0 && other.len == len,
           "sec1_key_write_of", private_len);
    expect(sec1_key_write_of(&given, other.data, len - 1, &other.len) == SEC1_BUFFER,
           "a short buffer", private_len);
    other.len = 0;
    status = sec1_private_key_info_write(private_key, private_len, curve, sizeof curve, public_key,
                                         public_len, public_len != 0, other.data, MOST,
                                         &other.len);
    expect(status == 0 && other.len > 0, "sec1_private_key_info_write", private_len);
    read_key(&key, private_len);
    draw(&key, 1, private_len);
    read_container(&key, 0, private_len);
    read_container(&key, 1, private_len);
}

int main(void)
{
    static uint8_t private_key[LONGEST];
    size_t len, byte;
    for (len = 0; len <= LONGEST; len += len < 70 || (len >= 115 && len < 130) ? 1 : 5) {
        for (byte = 0; byte < len; byte++)
            private_key[byte] = (uint8_t)(byte * 167 + len);
        (void)VALGRIND_MAKE_MEM_UNDEFINED(private_key, len);
        write_key(private_key, len, 0, 0);
        write_key(private_key, len, sizeof curve, 0);
        if (len > 0 && len <= 66)
            write_key(private_key, len, sizeof curve, 1 + 2 * len);
    }
    printf("%lu calls, %lu wrong\n", calls, wrong);
    return wrong != 0 || !RUNNING_ON_VALGRIND;
}
