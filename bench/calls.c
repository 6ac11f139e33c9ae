/* Runs calls of sec1.h in libraries that have them, which are shared objects:
 *
 *     calls check LIBRARY..              tests that all give the same answers as the first
 *     calls time LIBRARY..               prints each line, a library's number, and nanoseconds
 *     calls repeat LIBRARY LINE COUNT    runs a line so often, for a profiler
 *
 * It reads its key, its certificate and its container from files, and runs in this folder. */
#define _GNU_SOURCE
#include "../dist/tests/inputs.h"
#include <dlfcn.h>
#include <stddef.h>
#include <stdio.h>
#include <stdlib.h>
#include <sys/mman.h>
#include <time.h>

#define CALLS(X)                                                                                   \
    X(key_read)                                                                                    \
    X(key_write)                                                                                   \
    X(point_read)                                                                                  \
    X(point_compress)                                                                              \
    X(point_compare)                                                                               \
    X(identifier_to_text)                                                                          \
    X(identifier_from_text)                                                                        \
    X(certificate_read_public_key)                                                                 \
    X(private_key_info_read)                                                                       \
    X(public_key_read)

/* The calls of a library; NULL if it doesn't have one. */
struct library {
#define X(call) __typeof__(sec1_##call) *call;
    CALLS(X)
#undef X
};

static struct library load(const char *path)
{
    struct library library;
    void *handle = dlopen(path, RTLD_NOW | RTLD_LOCAL);
    if (!handle) {
        fprintf(stderr, "%s\n", dlerror());
        exit(2);
    }
#define X(call) *(void **)&library.call = dlsym(handle, "sec1_" #call);
    CALLS(X)
#undef X
    return library;
}

/* ---- answers */

enum { MOST = 2048, INPUTS = 400000, CALLS_COUNT = 10, CONTENT_MAX = 0x0FFFFFFF };

/* What all calls are given: bytes, another point, and where a key's parts are in the bytes. */
struct input {
    uint8_t bytes[MOST], other[MOST];
    size_t len, other_len, field, room, has_public_key;
    struct sec1_part private_key, curve, public_key;
};

/* What a call that writes has left. */
struct written {
    uint8_t out[MOST];
    size_t len;
};

/* What the calls have answered. */
struct answers {
    uint32_t status[CALLS_COUNT];
    int32_t order;
    struct sec1_key_parts key;
    struct sec1_point_parts point;
    struct sec1_part info;
    struct sec1_private_key_info_parts container;
    struct sec1_public_key_parts public_key;
    struct written written, compressed, content, text;
};

static void ask(const struct library *l, const struct input *in, struct answers *a)
{
    const uint8_t *bytes = in->len ? in->bytes : NULL;
    size_t len = in->len, room = in->room;
    memset(a, 0xA5, sizeof *a);
    a->status[0] = l->key_read(bytes, len, &a->key);
    a->status[1] = l->key_write(in->bytes + in->private_key.offset, in->private_key.len,
                                in->curve.len ? in->bytes + in->curve.offset : NULL, in->curve.len,
                                in->bytes + in->public_key.offset, in->public_key.len,
                                in->has_public_key, a->written.out, room, &a->written.len);
    a->status[2] = l->point_read(bytes, len, in->field, &a->point);
    a->status[3] = l->point_compress(bytes, len, in->field, a->compressed.out, room,
                                     &a->compressed.len);
    a->status[4] = l->point_compare(bytes, len, in->other, in->other_len, in->field, &a->order);
    a->status[5] = l->identifier_to_text(bytes, len, (char *)a->text.out, room, &a->text.len);
    a->status[6] = l->identifier_from_text((const char *)bytes, len, a->content.out, room,
                                           &a->content.len);
    a->status[7] = l->certificate_read_public_key(bytes, len, &a->info);
    a->status[8] = l->private_key_info_read(bytes, len, &a->container);
    a->status[9] = l->public_key_read(bytes, len, &a->public_key);
}

/* A text whose first arcs share a number at its limit, or are at their own. */
static size_t draw_arcs(uint8_t *out)
{
    static const char *const texts[] = {"2.4294967215", "2.4294967216", "2.4294967296", "1.39",
                                        "1.40", "0.39", "0.40", "2.40", "3.0", "2.999"};
    const char *text = texts[draw(10)];
    memcpy(out, text, strlen(text));
    return strlen(text);
}

/* A public key with any last byte of its curve's identifier. */
static size_t draw_any_curve(uint8_t *out)
{
    uint8_t curve[16];
    size_t curve_len = draw_curve(curve), at;
    curve[curve_len - 1] = (uint8_t)draw(256);
    at = draw_algorithm(out, curve, curve_len);
    return wrap(out, 0x30, at + draw_bits(out + at, 0x03, draw(67)));
}

/* Every second input is a key, most of the others something that another call reads. */
static size_t draw_input(uint8_t *out, size_t field)
{
    switch (draw(18)) {
    case 0: return draw_soup(out);
    case 1: return draw_content(out);
    case 2: return draw_text(out);
    case 3: return draw_point(out, field);
    case 4: return damage(out, draw_info(out));
    case 5: return damage(out, draw_container(out));
    case 6: return damage(out, draw_certificate(out));
    case 7: return draw_arcs(out);
    case 8: return draw_any_curve(out);
    default: return damage(out, draw_key(out));
    }
}

static void draw_all(struct input *in)
{
    static const size_t fields[] = {28, 32, 48, 66};
    size_t cut, curve;
    in->field = draw(2) ? fields[draw(4)] : draw(70);
    in->len = draw_input(in->bytes, in->field);
    in->other_len = draw(2) ? draw_point(in->other, in->field) : in->len;
    if (in->other_len == in->len)
        memcpy(in->other, in->bytes, in->len);
    if (in->other_len == in->len && in->len && draw(2))
        in->other[draw((uint32_t)in->len)] += 2;
    in->room = draw(2) ? MOST : draw((uint32_t)in->len + 20);
    cut = draw((uint32_t)in->len + 1);
    curve = draw((uint32_t)(in->len - cut < 12 ? in->len - cut : 12) + 1);
    in->private_key = place(0, cut);
    in->curve = place(cut, cut + curve);
    in->public_key = place(cut + curve, in->len);
    in->has_public_key = draw(3);
}

/* Whether keys near the greatest length are measured and refused alike. */
static int same_lengths(const struct library *libraries, int count)
{
    static const size_t publics[] = {0, 65, CONTENT_MAX - 1, CONTENT_MAX, CONTENT_MAX + 1};
    const uint8_t *zeros = mmap(NULL, CONTENT_MAX + 2, PROT_READ,
                                MAP_PRIVATE | MAP_ANONYMOUS | MAP_NORESERVE, -1, 0);
    for (size_t i = 0; i < 1000 && zeros != MAP_FAILED; i++) {
        size_t private_len = i < 150 ? CONTENT_MAX + 1 - i : (size_t)1 << i % 28, lens[2];
        uint32_t status[2];
        if (i >= 500)
            private_len = 110 + draw(160);
        for (int l = 0; l < count; l++) {
            lens[l > 0] = 777777;
            status[l > 0] = libraries[l].key_write(zeros, private_len, zeros, i % 2, zeros,
                                                   publics[i % 5], i % 3, NULL, 0, &lens[l > 0]);
            if (l && (status[0] != status[1] || lens[0] != lens[1]))
                return 0;
        }
    }
    return zeros != MAP_FAILED;
}

/* Whether all libraries give the same answers, which are stored. */
static int same_answers(const struct library *libraries, int count, const struct input *in,
                        struct answers *first)
{
    static struct answers next;
    ask(&libraries[0], in, first);
    for (int l = 1; l < count; l++) {
        ask(&libraries[l], in, &next);
        if (memcmp(first, &next, sizeof next) == 0)
            continue;
        printf("library %d answers otherwise: ", l);
        for (size_t at = 0; at < in->len; at++)
            printf("%02X", in->bytes[at]);
        printf("\n");
        return 0;
    }
    return 1;
}

static int check(const struct library *libraries, int count)
{
    static struct input in;
    static struct answers answers;
    long accepted[CALLS_COUNT] = {0}, all = 0;
    int is_same = same_lengths(libraries, count);
    for (long i = 0; i < INPUTS && is_same; i++) {
        draw_all(&in);
        if (libraries->key_read(in.bytes, in.len, &answers.key) == SEC1_OK) {
            in.private_key = answers.key.private_key;
            in.curve = answers.key.curve;
            in.public_key = answers.key.public_key;
            in.has_public_key = answers.key.public_key.present;
        }
        is_same = same_answers(libraries, count, &in, &answers);
        for (int call = 0; call < CALLS_COUNT; call++)
            accepted[call] += answers.status[call] == SEC1_OK;
    }
    for (int call = 0; call < CALLS_COUNT; all += accepted[call++])
        is_same &= accepted[call] >= 1000;
    printf("%s: %d inputs, %ld of them keys; %d calls, of which %ld succeed\n",
           is_same ? "the same answers by all" : "FAILED", INPUTS, accepted[0],
           CALLS_COUNT * INPUTS, all);
    return !is_same;
}

/* ---- lines */

struct file {
    uint8_t bytes[512];
    size_t len;
};

static struct file key, bare, other_tag, certificate, container, with_attributes;

static void load_file(const char *path, struct file *file)
{
    FILE *stream = fopen(path, "rb");
    if (!stream) {
        perror(path);
        exit(2);
    }
    file->len = fread(file->bytes, 1, sizeof file->bytes, stream);
    fclose(stream);
}

/* The key has a private key of 32 bytes at 7, an identifier of 8 at 43, and a point of 65 at 56. */
static void load_files(void)
{
    load_file("../dist/examples/p256.der", &key);
    load_file("p256_certificate.der", &certificate);
    load_file("p256_container.der", &container);
    load_file("p256_attributes.der", &with_attributes);
    memcpy(bare.bytes, key.bytes, bare.len = 39);
    bare.bytes[1] = 37;
    other_tag = key;
    other_tag.bytes[0] = 0x31;
}

static struct sec1_key_parts parts;
static struct sec1_point_parts point;
static struct sec1_private_key_info_parts inside;
static struct sec1_public_key_parts public_key;
static struct sec1_part info;
static uint8_t out[256];
static size_t len;
static int32_t order;

/* A line: how it is called here, its name, the call and what it is given, and its status. The
 * certificate has its SubjectPublicKeyInfo at 189. */
#define LINES(X)                                                                                   \
    X(read_key, "sec1_key_read", key_read, (key.bytes, key.len, &parts), SEC1_OK)                  \
    X(read_bare, "sec1_key_read, no options", key_read, (bare.bytes, bare.len, &parts), SEC1_OK)   \
    X(refuse_tag, "sec1_key_read, first tag", key_read,                                            \
      (other_tag.bytes, other_tag.len, &parts), SEC1_TAG)                                          \
    X(refuse_cut, "sec1_key_read, cut", key_read, (key.bytes, 60, &parts), SEC1_TRUNCATED)         \
    X(write_key, "sec1_key_write", key_write,                                                      \
      (key.bytes + 7, 32, key.bytes + 43, 8, key.bytes + 56, 65, 1, out, sizeof out, &len),        \
      SEC1_OK)                                                                                     \
    X(write_bare, "sec1_key_write, no options", key_write,                                         \
      (key.bytes + 7, 32, NULL, 0, NULL, 0, 0, out, sizeof out, &len), SEC1_OK)                    \
    X(read_point, "sec1_point_read", point_read, (key.bytes + 56, 65, 32, &point), SEC1_OK)        \
    X(compress, "sec1_point_compress", point_compress,                                             \
      (key.bytes + 56, 65, 32, out, sizeof out, &len), SEC1_OK)                                    \
    X(compare, "sec1_point_compare", point_compare,                                                \
      (key.bytes + 56, 65, key.bytes + 56, 65, 32, &order), SEC1_OK)                               \
    X(to_text, "sec1_identifier_to_text", identifier_to_text,                                      \
      (key.bytes + 43, 8, (char *)out, sizeof out, &len), SEC1_OK)                                 \
    X(from_text, "sec1_identifier_from_text", identifier_from_text,                                \
      ("1.2.840.10045.3.1.7", 19, out, sizeof out, &len), SEC1_OK)                                 \
    X(read_certificate, "sec1_certificate_read_public_key", certificate_read_public_key,           \
      (certificate.bytes, certificate.len, &info), SEC1_OK)                                        \
    X(read_container, "sec1_private_key_info_read", private_key_info_read,                         \
      (container.bytes, container.len, &inside), SEC1_OK)                                          \
    X(read_attributes, "sec1_private_key_info_read, attributes", private_key_info_read,            \
      (with_attributes.bytes, with_attributes.len, &inside), SEC1_OK)                              \
    X(read_public_key, "sec1_public_key_read", public_key_read,                                    \
      (certificate.bytes + 189, 91, &public_key), SEC1_OK)

#define X(task, name, call, given, status)                                                         \
    static uint32_t task(const struct library *l)                                                  \
    {                                                                                              \
        return l->call given;                                                                      \
    }
LINES(X)
#undef X

/* Both calls. A library of another kind does all in the first, and stores no place. */
static uint32_t certificate_key(const struct library *l)
{
    info.present = 0;
    uint32_t status = read_certificate(l);
    return status || !info.present ? status : read_public_key(l);
}

static const struct line {
    const char *name;
    size_t call;
    uint32_t (*run)(const struct library *);
    uint32_t status;
} lines[] = {
#define X(task, name, call, given, status) {name, offsetof(struct library, call), task, status},
    LINES(X)
    X(certificate_key, "a certificate's key", certificate_read_public_key, (), SEC1_OK)
#undef X
};

enum { COUNT = sizeof lines / sizeof *lines, LIBRARIES = 16 };

static void repeat(const struct line *line, const struct library *library, long count)
{
    while (count-- > 0)
        (void)!line->run(library);
}

/* Whether a library has the call of a line, and does as it should. One of another kind writes the
 * key that it has read last. */
static int works(const struct line *line, const struct library *library)
{
    void *call;
    memcpy(&call, (const char *)library + line->call, sizeof call);
    return call && read_key(library) == SEC1_OK && line->run(library) == line->status;
}

static double nanoseconds(const struct line *line, const struct library *library, long count)
{
    struct timespec begin, end;
    clock_gettime(CLOCK_MONOTONIC, &begin);
    repeat(line, library, count);
    clock_gettime(CLOCK_MONOTONIC, &end);
    return (double)(end.tv_sec - begin.tv_sec) * 1e9 + (double)(end.tv_nsec - begin.tv_nsec);
}

/* Prints the fastest of many short slices of each line, which all libraries take in turn. */
static void measure(const struct library *libraries, int count)
{
    enum { ROUNDS = 500, SLICE = 20000 };
    static long calls[COUNT][LIBRARIES];
    static double best[COUNT][LIBRARIES];
    for (int i = 0; i < COUNT; i++)
        for (int l = 0; l < count; l++) {
            if (!works(&lines[i], &libraries[l]))
                continue;
            for (calls[i][l] = 1; nanoseconds(&lines[i], &libraries[l], calls[i][l]) < SLICE;)
                calls[i][l] *= 2;
            best[i][l] = 1e18;
        }
    for (int round = 0; round < ROUNDS; round++)
        for (int i = 0; i < COUNT; i++)
            for (int l = 0; l < count; l++) {
                if (!calls[i][l] || !works(&lines[i], &libraries[l]))
                    continue;
                double took = nanoseconds(&lines[i], &libraries[l], calls[i][l]);
                took /= (double)calls[i][l];
                best[i][l] = took < best[i][l] ? took : best[i][l];
            }
    for (int i = 0; i < COUNT; i++)
        for (int l = 0; l < count; l++)
            if (calls[i][l])
                printf("%s\t%d\t%.2f\n", lines[i].name, l, best[i][l]);
}

int main(int argc, char **argv)
{
    struct library libraries[LIBRARIES];
    const char *task = argc > 2 ? argv[1] : "";
    int is_repeat = strcmp(task, "repeat") == 0 && argc == 5;
    int count = is_repeat ? 1 : argc - 2;
    if (argc < 3 || count > LIBRARIES)
        return 2;
    for (int l = 0; l < count; l++)
        libraries[l] = load(argv[2 + l]);
    if (strcmp(task, "check") == 0)
        return check(libraries, count);
    load_files();
    if (strcmp(task, "time") == 0)
        measure(libraries, count);
    for (int i = 0; i < COUNT && is_repeat; i++)
        if (strcmp(argv[3], lines[i].name) == 0 && read_key(libraries) == SEC1_OK)
            repeat(&lines[i], libraries, atol(argv[4]));
    return 0;
}
