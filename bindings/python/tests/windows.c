/* For Windows: loads sec1/sec1.dll, reads the private key in a file, whole and without its last byte, and
 * prints what is returned, and the places of its parts. */
#include <stdint.h>
#include <stdio.h>
#include <windows.h>
#include "sec1.h"

typedef uint32_t key_read(const uint8_t *, size_t, struct sec1_key_parts *);

static void print(const char *before, struct sec1_part part)
{
    printf("%s%u at %u", before, (unsigned)part.len, (unsigned)part.offset);
}

int main(int count, char **words)
{
    static uint8_t bytes[1000];
    struct sec1_key_parts parts;
    HMODULE library = LoadLibraryA("sec1\\sec1.dll");
    key_read *read = library ? (key_read *)(void *)GetProcAddress(library, "sec1_key_read") : NULL;
    FILE *file = count == 2 ? fopen(words[1], "rb") : NULL;
    size_t len = file ? fread(bytes, 1, sizeof bytes, file) : 0;
    unsigned status;
    if (!read || !len)
        return 2;
    status = read(bytes, len, &parts);
    printf("%u", status);
    print(": ", parts.private_key);
    print(", ", parts.curve);
    print(", ", parts.public_key);
    status = read(bytes, len - 1, &parts);
    printf("; cut: %u\n", status);
    return 0;
}
