/* Prints the parts of an EC private key in DER: key_parts FILE. It is C99, and C++ as well. */
#include <sec1.h>
#include <stdio.h>

static void print_point(const uint8_t *public_key, size_t len, size_t field_len)
{
    struct sec1_point_parts point;
    uint32_t status = sec1_point_read(public_key, len, field_len, &point);
    if (status)
        printf("no point: %s\n", sec1_status_text(status));
    else
        printf("point: tag %zu, x at %zu, y at %zu\n", point.tag, point.x.offset, point.y.offset);
}

int main(int argc, char **argv)
{
    static uint8_t key[65536];
    FILE *file = argc == 2 ? fopen(argv[1], "rb") : NULL;
    if (!file) {
        fprintf(stderr, "usage: key_parts FILE\n");
        return 2;
    }
    size_t key_len = fread(key, 1, sizeof key, file);
    fclose(file);

    struct sec1_key_parts parts;
    uint32_t status = sec1_key_read(key, key_len, &parts);
    if (status) {
        printf("refused: %u (%s)\n", (unsigned)status, sec1_status_text(status));
        return 1;
    }
    printf("private key: %zu bytes at %zu\n", parts.private_key.len, parts.private_key.offset);
    char name[SEC1_IDENTIFIER_TEXT_MAX] = "";
    if (parts.curve.present) {
        size_t name_len;
        status = sec1_identifier_to_text(key + parts.curve.offset, parts.curve.len, name,
                                         sizeof name, &name_len);
        printf("curve: %s\n", status ? sec1_status_text(status) : name);
    }
    if (!parts.public_key.present) {
        printf("no point: the key has no public key\n");
        return 0;
    }
    printf("public key: ");
    for (size_t i = 0; i < parts.public_key.len; i++)
        printf("%02X", key[parts.public_key.offset + i]);
    printf("\n");
    if (!parts.curve.present) {
        printf("no point: the key names no curve\n");
        return 0;
    }
    size_t field_len;
    status = sec1_curve_field_len(key + parts.curve.offset, parts.curve.len, &field_len);
    if (status)
        printf("no point: %s\n", sec1_status_text(status));
    else
        print_point(key + parts.public_key.offset, parts.public_key.len, field_len);
    return 0;
}
