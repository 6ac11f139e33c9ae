/* SPDX-License-Identifier: Apache-2.0 OR MIT
 *
 * sec1_dump: draws any file that people have in place of a key, and says what it is. All that it
 * shows is from sec1_picture_show. It is C99, and C++. */
#include "sec1.h"
#include <errno.h>
#include <stdio.h>
#include <stdlib.h>
#include <string.h>

#ifdef _WIN32
#include <fcntl.h>
#include <io.h>
#endif

/* The greatest length of an input in bytes. */
#define LIMIT 16777215

#define TEXT(number) TEXT_OF(number)
#define TEXT_OF(number) #number
#define VERSION                                                                                    \
    TEXT(SEC1_VERSION_MAJOR) "." TEXT(SEC1_VERSION_MINOR) "." TEXT(SEC1_VERSION_PATCH)

static const char HELP[] =
    "Draws any file that people have in place of a key, and says what it is\n"
    "\n"
    "Usage: sec1_dump [--all] [--json] [--offset N] [--depth N] [FILE]..\n"
    "\n"
    "FILE is DER, PEM, hexadecimal or base64, of at most 16,777,215 bytes; standard input if\n"
    "absent or -. A content that may be private is hidden: its length stands in its place.\n"
    "\n"
    "Options:\n"
    "      --all       Shows the content of each element too, private keys among them\n"
    "      --json      Prints lines of JSON\n"
    "      --offset N  Draws the element that begins after N bytes alone\n"
    "      --depth N   Draws no element that more than N others are around\n"
    "  -h, --help      Prints help\n"
    "  -V, --version   Prints the version\n"
    "\n"
    "The status is 0 if each file has an EC private key (RFC 5915), 1 if one has none, and 2 if\n"
    "one can't be read or shown, or for wrong arguments.\n"
    "\n"
    "Example: sec1_dump --depth 1 key.pem\n";

/* Bytes that malloc returned, and their number. */
struct bytes {
    uint8_t *at;
    size_t len;
};

/* Why a file isn't shown: a text, or SYSTEM, and then errno says it. NULL if it is shown. */
typedef const char *failure;
static const char SYSTEM[] = "", NO_MEMORY[] = "out of memory";

/* Reads the character that a text in UTF-8 begins with, and returns the number of its bytes: 1, and
 * no character above 7F, where it begins with none. */
static size_t character_of(const char *text, unsigned long *code)
{
    const unsigned char *bytes = (const unsigned char *)text;
    size_t len = bytes[0] < 0xC2   ? 1
                 : bytes[0] < 0xE0 ? 2
                 : bytes[0] < 0xF0 ? 3
                 : bytes[0] < 0xF5 ? 4
                                   : 1;
    static const unsigned long least[] = {0, 0, 0x80, 0x800, 0x10000};
    size_t index;
    *code = len == 1 ? bytes[0] : bytes[0] & (0x7F >> len);
    for (index = 1; index < len; index++) {
        if ((bytes[index] & 0xC0) != 0x80)
            break;
        *code = *code << 6 | (bytes[index] & 0x3F);
    }
    if (index < len || *code < least[len] || *code > 0x10FFFF || (*code & 0x1FF800) == 0xD800) {
        *code = bytes[0];
        return 1;
    }
    return len;
}

/* Prints the name of a file, escaped as in Rust. */
static void print_name(FILE *to, const char *name)
{
    while (*name) {
        unsigned long code;
        size_t len = character_of(name, &code);
        if (code == '"' || code == '\\')
            fprintf(to, "\\%c", (int)code);
        else if (code >= 0x20 && code <= 0x7E)
            fputc((int)code, to);
        else
            fprintf(to, len == 1 && code > 0x7F ? "\\x%02lX" : "\\u{%lX}", code);
        name += len;
    }
}

/* Says on standard error why the file of this name isn't shown. */
static void complain(const char *name, failure why)
{
    int error = errno;
    fputs("sec1_dump: ", stderr);
    print_name(stderr, name);
    fprintf(stderr, ": %s\n", why == SYSTEM ? strerror(error) : why);
}

/* Reads a file to its end, and at most one byte more than the limit. */
static failure read_all(FILE *file, struct bytes *input)
{
    size_t room = 65536, more;
    input->len = 0;
    input->at = (uint8_t *)malloc(room);
    while (input->at && (more = fread(input->at + input->len, 1, room - input->len, file)) > 0) {
        input->len += more;
        if (input->len > LIMIT)
            return "more than 16,777,215 bytes";
        if (input->len == room) {
            uint8_t *longer = (uint8_t *)realloc(input->at, room *= 2);
            if (!longer)
                free(input->at);
            input->at = longer;
        }
    }
    if (!input->at)
        return NO_MEMORY;
    return ferror(file) ? SYSTEM : NULL;
}

/* Wipes and frees bytes. */
static void leave(struct bytes *bytes)
{
    volatile uint8_t *at = bytes->at;
    size_t index;
    for (index = 0; at && index < bytes->len; index++)
        at[index] = 0;
    free(bytes->at);
    bytes->at = NULL;
    bytes->len = 0;
}

/* Replaces bytes by others, of this number. Returns whether there is memory for them. */
static int renew(struct bytes *bytes, size_t len)
{
    leave(bytes);
    bytes->at = (uint8_t *)malloc(len ? len : 1);
    bytes->len = bytes->at ? len : 0;
    return bytes->at != NULL;
}

/* Prints the picture of an input. The first call says how long it is. */
static failure show(const struct bytes *input, const struct sec1_picture_options *options,
                    size_t *is_key)
{
    struct bytes text = {NULL, 0}, room = {NULL, 0};
    size_t len = 0;
    failure why = NULL;
    uint32_t status = SEC1_BUFFER;
    while (status == SEC1_BUFFER && !why) {
        if (!renew(&text, len) || !renew(&room, SEC1_PICTURE_ROOM(input->len, len)))
            why = NO_MEMORY;
        else
            status = sec1_picture_show(input->at, input->len, options, room.at, room.len,
                                       (char *)text.at, text.len, &len, is_key);
    }
    if (!why && status)
        why = sec1_status_text(status);
    if (!why)
        fwrite(text.at, 1, len, stdout);
    leave(&text);
    leave(&room);
    return why;
}

/* Shows a file, and returns the status for it. */
static int show_file(const char *path, struct sec1_picture_options options, int is_named)
{
    int is_input = !path || !strcmp(path, "-");
    FILE *file = is_input ? stdin : fopen(path, "rb");
    struct bytes input = {NULL, 0};
    size_t is_key = 0;
    failure why = file ? read_all(file, &input) : SYSTEM;
    if (file && !is_input)
        fclose(file);
    if (is_named && options.json) {
        options.file = (const uint8_t *)path;
        options.file_len = strlen(path);
    } else if (!why && is_named) {
        print_name(stdout, path);
        fputs(":\n", stdout);
    }
    if (!why)
        why = show(&input, &options, &is_key);
    leave(&input);
    if (why)
        complain(is_input ? "standard input" : path, why);
    return why ? 2 : !is_key;
}

/* Reads a number in decimal digits. Returns whether the text is one, and below the limit. */
static int number_of(const char *text, size_t *number)
{
    char *end;
    unsigned long found = strtoul(text, &end, 10);
    *number = (size_t)found;
    return text[0] >= '0' && text[0] <= '9' && !*end && found <= LIMIT;
}

/* Prints a text and flushes what was printed. Returns the status, which isn't below this one. */
static int finish(const char *text, int status)
{
    fputs(text, stdout);
    if (fflush(stdout) || ferror(stdout)) {
        complain("standard output", SYSTEM);
        return 2;
    }
    return status;
}

/* Says what is wrong with an argument, and returns the status for it. */
static int refuse(const char *argument, failure why)
{
    complain(argument, why);
    return 2;
}

int main(int argc, char **argv)
{
    struct sec1_picture_options options = {0, 0, 0, 0, NULL, 0};
    int index, count = 0, ends = 0, status = 0;
#ifdef _WIN32
    _setmode(_fileno(stdin), _O_BINARY);
    _setmode(_fileno(stdout), _O_BINARY);
#endif
    /* The files are moved to the front. */
    for (index = 1; index < argc; index++) {
        const char *word = argv[index];
        int is_offset = !strcmp(word, "--offset"), is_depth = !strcmp(word, "--depth");
        size_t number = 0;
        if (ends || word[0] != '-' || !word[1]) {
            argv[1 + count++] = argv[index];
        } else if (!strcmp(word, "--")) {
            ends = 1;
        } else if (!strcmp(word, "--all")) {
            options.all = 1;
        } else if (!strcmp(word, "--json")) {
            options.json = 1;
        } else if (is_offset || is_depth) {
            if (++index == argc || !number_of(argv[index], &number))
                return refuse(word, "a number from 0 to 16777215 has to follow");
            if (is_offset)
                options.offset = number;
            else
                options.levels = number + 1;
        } else if (!strcmp(word, "--help") || !strcmp(word, "-h")) {
            return finish(HELP, 0);
        } else if (!strcmp(word, "--version") || !strcmp(word, "-V")) {
            return finish("sec1_dump " VERSION "\n", 0);
        } else {
            return refuse(word, "unknown option; see --help");
        }
    }
    if (!count)
        status = show_file(NULL, options, 0);
    for (index = 0; index < count && !ferror(stdout); index++) {
        int ended = show_file(argv[1 + index], options, count > 1 || options.json);
        status = ended > status ? ended : status;
    }
    return finish("", status);
}
