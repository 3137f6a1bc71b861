/* A stand-in for the library, for the tests of the packages: of three octets each call answers the status, the reason
 * and the reason inside that they say, and writes nothing; pkder_same of the three of `first`, and of a fault that it
 * is in `second`. So a package meets what no document brings: want of memory, and what a later library may answer, a
 * status that has no name yet or the reason 28. */
#include <string.h>

#include "pkder.h"

static pkder_outcome told(const uint8_t *src, size_t src_len) {
    if (src_len != 3) {
        return (pkder_outcome){PKDER_BAD_CALL, 0, 0, 0, 0, 0, 0, 0};
    }
    return (pkder_outcome){src[0], src[1], src[2], 0, 5, 7, 0, 0};
}

uint32_t pkder_interface(void) {
    return PKDER_INTERFACE;
}

pkder_outcome pkder_check(uint32_t kind, uint32_t depth, uint64_t octets, const uint8_t *src, size_t src_len) {
    (void)kind, (void)depth, (void)octets;
    return told(src, src_len);
}

pkder_outcome pkder_same(uint32_t kind, uint32_t depth, uint64_t octets, const uint8_t *first, size_t first_len,
                         const uint8_t *second, size_t second_len) {
    (void)kind, (void)depth, (void)octets, (void)second, (void)second_len;
    pkder_outcome said = told(first, first_len);
    said.which = said.status == PKDER_FAULT ? 2 : 0;
    return said;
}

#define TEXT_CALL(name)                                                                                                \
    pkder_outcome name(uint32_t what, uint32_t depth, uint64_t octets, const uint8_t *src, size_t src_len,             \
                       uint8_t *dst, size_t dst_len) {                                                                 \
        (void)what, (void)depth, (void)octets, (void)dst, (void)dst_len;                                               \
        return told(src, src_len);                                                                                     \
    }

TEXT_CALL(pkder_normalise)
TEXT_CALL(pkder_signed)
TEXT_CALL(pkder_show)
TEXT_CALL(pkder_field)

pkder_outcome pkder_explain(uint32_t kind, uint32_t depth, uint64_t octets, uint32_t form, const uint8_t *src,
                            size_t src_len, uint8_t *dst, size_t dst_len) {
    (void)kind, (void)depth, (void)octets, (void)form, (void)dst, (void)dst_len;
    return told(src, src_len);
}

size_t pkder_reason_name(uint32_t reason, uint8_t *dst, size_t dst_len) {
    static const char name[] = "Later";
    if (reason != 28) {
        return 0;
    }
    if (dst_len >= sizeof name) {
        memcpy(dst, name, sizeof name);
    }
    return sizeof name - 1;
}
