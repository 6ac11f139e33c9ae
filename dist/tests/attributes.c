/* Calls that a compiler has to accept without a warning, and by WRONG one that it has to warn
 * of. */
#include <sec1.h>

static uint8_t key[128], out[64];
static char text[SEC1_IDENTIFIER_TEXT_MAX], name[SEC1_CURVE_NAME_MAX];
static struct sec1_key_parts parts;
static struct sec1_point_parts point;
static struct sec1_public_key_parts public_key;
static struct sec1_private_key_info_parts container;
static struct sec1_part part;
static struct sec1_signature_parts signature;
static uint32_t arcs[SEC1_IDENTIFIER_ARCS_MAX];
static uint8_t info[SEC1_PUBLIC_KEY_MAX];
static size_t len, other_len;
static struct sec1_picture_line lines[2];
static int32_t order;
static const struct sec1_key given = {key, 32, NULL, 0, key, 65, 1};
static const struct sec1_picture_options options = {1, 1, 2, 0, key, 2};

uint32_t right_calls(size_t some);
uint32_t wrong_call(size_t some);

/* Among them NULL with the length 0 in each place, and a length that isn't known. */
uint32_t right_calls(size_t some)
{
    uint32_t status = sec1_key_read(key, sizeof key, &parts);
    status |= sec1_key_read(key, some, &parts);
    status |= sec1_key_read(NULL, 0, &parts);
    status |= sec1_key_len(key, 32, NULL, 0, NULL, 0, 0, &len);
    status |= sec1_key_write(key, 32, key, 8, key, 65, 1, out, sizeof out, &len);
    status |= sec1_key_write(NULL, 0, NULL, 0, NULL, 0, 1, NULL, 0, &len);
    status |= sec1_key_len_of(&given, &len);
    status |= sec1_key_write_of(&given, out, sizeof out, &len);
    status |= sec1_key_write_of(&given, NULL, 0, &len);
    status |= sec1_public_key_read(key, some, &public_key);
    status |= sec1_public_key_read(NULL, 0, &public_key);
    status |= sec1_certificate_read_public_key(key, some, &part);
    status |= sec1_certificate_read_public_key(NULL, 0, &part);
    status |= sec1_private_key_info_read(key, some, &container);
    status |= sec1_private_key_info_read(NULL, 0, &container);
    status |= sec1_private_key_read(key, some, &parts);
    status |= sec1_private_key_read(NULL, 0, &parts);
    status |= sec1_public_key_write(key, 8, key, 65, info, sizeof info, &len);
    status |= sec1_public_key_write(NULL, 0, NULL, 0, NULL, 0, &len);
    status |= sec1_private_key_info_write(key, 32, key, 8, key, 65, 1, out, sizeof out, &len);
    status |= sec1_private_key_info_write(NULL, 0, NULL, 0, NULL, 0, 0, NULL, 0, &len);
    status |= sec1_signature_read(key, some, &signature);
    status |= sec1_signature_read(NULL, 0, &signature);
    status |= sec1_signature_write(key, 32, key, some, out, sizeof out, &len);
    status |= sec1_signature_write(NULL, 0, NULL, 0, NULL, 0, &len);
    status |= sec1_identifier_arcs(key, 8, arcs, SEC1_IDENTIFIER_ARCS_MAX, &len);
    status |= sec1_identifier_arcs(NULL, 0, NULL, 0, &len);
    status |= sec1_check_tree(key, sizeof key, &len);
    status |= sec1_certificate_public_key(key, some, &part);
    status |= sec1_point_len(SEC1_POINT_COMPACT, 32, &len);
    status |= sec1_point_check(key, 65, 32);
    status |= sec1_point_check(NULL, 0, 32);
    status |= sec1_point_read(key, 65, 32, &point);
    status |= sec1_point_compress(key, 65, 32, out, sizeof out, &len);
    status |= sec1_point_compress(key, 65, 32, NULL, 0, &len);
    status |= sec1_point_to_hybrid(key, 65, 32, out, some, &len);
    status |= sec1_point_compare(key, 65, key, 33, 32, &order);
    status |= sec1_identifier_to_text(key, 8, text, sizeof text, &len);
    status |= sec1_identifier_from_text("1.2.840", 7, out, sizeof out, &len);
    status |= sec1_identifier_from_text(text, some, out, sizeof out, &len);
    status |= sec1_tree_check(key, sizeof key, &len);
    status |= sec1_document_len(key, sizeof key, &len);
    status |= sec1_element_read(key, sizeof key, &len, &other_len);
    status |= sec1_element_read(NULL, 0, &len, &other_len);
    status |= sec1_element_write(0x04, key, some, out, sizeof out, &len);
    status |= sec1_element_write(0x05, NULL, 0, NULL, 0, &len);
    status |= sec1_key_fault_at(key, some, &len);
    status |= sec1_key_fault_at(NULL, 0, &len);
    status |= sec1_key_read_at(key, some, &parts, &len);
    status |= sec1_key_read_at(NULL, 0, &parts, &len);
    status |= sec1_public_key_fault_at(key, some, &len);
    status |= sec1_public_key_fault_at(NULL, 0, &len);
    status |= sec1_private_key_info_fault_at(key, some, &len);
    status |= sec1_private_key_info_fault_at(NULL, 0, &len);
    status |= sec1_certificate_fault_at(key, some, &len);
    status |= sec1_certificate_fault_at(NULL, 0, &len);
    status |= sec1_private_key_fault_at(key, some, &len);
    status |= sec1_private_key_fault_at(NULL, 0, &len);
    status |= sec1_signature_fault_at(key, some, &len);
    status |= sec1_signature_fault_at(NULL, 0, &len);
    status |= sec1_tree_fault_at(key, sizeof key, &len);
    status |= sec1_identifier_check(key, 8);
    status |= sec1_identifier_check(NULL, 0);
    status |= sec1_curve_field_len(key, some, &len);
    status |= sec1_curve_name(key, 8, name, sizeof name, &len);
    status |= sec1_curve_name(NULL, 0, NULL, 0, &len);
    status |= sec1_curve_from_name("P-256", 5, out, sizeof out, &len);
    status |= sec1_curve_from_name(name, some, NULL, 0, &len);
    status |= sec1_point_from_coordinates(key, 32, key, 32, 1, out, sizeof out, &len);
    status |= sec1_point_from_coordinates(NULL, 0, NULL, 0, 0, NULL, 0, &len);
    status |= sec1_point_identity(out, sizeof out, &len);
    status |= sec1_point_identity(NULL, 0, &len);
    status |= sec1_point_to_hex(key, 65, 32, 0, text, sizeof text, &len);
    status |= sec1_point_to_hex(key, 65, 32, 1, NULL, 0, &len);
    status |= sec1_point_from_hex("00", 2, 32, out, sizeof out, &len);
    status |= sec1_point_from_hex(text, some, 32, NULL, 0, &len);
    status |= sec1_pem_decode(text, some, "KEY", 3, out, sizeof out, &len, &other_len);
    status |= sec1_pem_decode(NULL, 0, NULL, 0, NULL, 0, &len, &other_len);
    status |= sec1_picture_draw(key, some, 0, out, sizeof out, text, sizeof text, &len, &other_len);
    status |= sec1_picture_draw(NULL, 0, 1, NULL, 0, NULL, 0, &len, &other_len);
    status |= sec1_picture_write(key, some, 0, 1, 0, 0, key, 2, out, sizeof out, text, sizeof text,
                                 &len, &other_len);
    status |= sec1_picture_write(NULL, 0, 1, 0, 0, 0, NULL, 0, NULL, 0, NULL, 0, &len, &other_len);
    status |= sec1_picture_show(key, some, &options, out, sizeof out, text, sizeof text, &len,
                                &other_len);
    status |= sec1_picture_show(NULL, 0, &options, NULL, 0, NULL, 0, &len, &other_len);
    status |= sec1_picture_lines(key, some, out, sizeof out, lines, 2, &len);
    status |= sec1_picture_lines(NULL, 0, NULL, 0, NULL, 0, &len);
    status |= sec1_status_to_text(some, text, sizeof text, &len);
    status |= sec1_status_to_text(0, NULL, 0, &len);
    return sec1_status_text(status)[0] == 'o' ? sec1_version() : status;
}

#ifndef WRONG
#define WRONG 0
#endif

uint32_t wrong_call(size_t some)
{
#if WRONG == 1 /* the status is ignored */
    sec1_key_read(key, some, &parts);
    return 0;
#elif WRONG == 2
    sec1_point_compress(key, 65, 32, out, sizeof out, &len);
    return (uint32_t)some;
#elif WRONG == 3 /* NULL for an object */
    return sec1_key_read(key, some, NULL);
#elif WRONG == 4
    return sec1_key_len(key, some, NULL, 0, NULL, 0, 0, NULL);
#elif WRONG == 5
    return sec1_point_compare(key, some, key, some, 32, NULL);
#elif WRONG == 6 /* from here on a compiler sees them by the attribute access: NULL with a length */
    return sec1_key_read(NULL, 32 + 0 * some, &parts);
#elif WRONG == 7
    return sec1_key_len(key, some, NULL, 0, NULL, 65, 0, &len);
#elif WRONG == 8
    return sec1_point_compress(key, some, 32, NULL, 33, &len);
#elif WRONG == 9 /* a length beyond the bytes */
    return sec1_point_check(key, sizeof key + 1, 32 + 0 * some);
#elif WRONG == 10
    return sec1_identifier_to_text(key, some, text, sizeof text + 1, &len);
#elif WRONG == 11
    return sec1_key_write(key, 32, key, some, key, 65, 1, out, 121, &len);
#elif WRONG == 12
    return sec1_curve_name(key, some, name, sizeof name + 1, &len);
#elif WRONG == 13
    return sec1_point_identity(NULL, 1 + 0 * some, &len);
#elif WRONG == 14
    return sec1_element_write(0x04, key, sizeof key + 1, out, some, &len);
#elif WRONG == 15
    return sec1_public_key_read(key, sizeof key + 1 + 0 * some, &public_key);
#elif WRONG == 16
    return sec1_certificate_read_public_key(key, sizeof key + 1 + 0 * some, &part);
#elif WRONG == 17
    return sec1_private_key_info_read(NULL, 1 + 0 * some, &container);
#else
    return (uint32_t)some;
#endif
}
