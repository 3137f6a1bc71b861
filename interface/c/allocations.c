/* allocations FILE..: whether pkder_check asks for memory where a document is in DER: a line for each file that is,
 * "judged" or "read", a tab and its name. Of a request of 10,000 attributes, a package of 1,000 keys and encrypted keys
 * with parameters of any form it asks for none; of what isn't in DER, and of an identifier of two octets, it does. Where
 * it asks for none, pkder_normalise and pkder_same don't either. It is linked as counted.h says. */
#include "counted.h"
#include "elements.h"

enum { ATTRIBUTES = 10000, KEYS = 1000, ROOM = 1 << 18 };

static uint8_t room[ROOM], text[ROOM];
static unsigned long documents;

/* Normalises and compares a document in DER that is judged as it stands. */
static void take_no_memory(const struct task *task, const uint8_t *octets, size_t len) {
    asked = 0;
    pkder_outcome said = pkder_normalise(task->what, task->depth, task->octets, octets, len, text, sizeof text);
    CHECK(said.status == PKDER_ACCEPTED && said.size == len && memcmp(text, octets, len) == 0);
    said = pkder_same(task->what, task->depth, task->octets, octets, len, text, len);
    CHECK(said.status == PKDER_ACCEPTED && asked == 0);
}

/* Checks a document, of whatever kind it is; whether it is one. */
static int check_document(const uint8_t *octets, size_t len, int *is_in_der, int *is_read) {
    for (uint32_t kind = 1; kind <= PKDER_PACKAGE; kind++) {
        const struct task task = {NULL, kind, PKDER_DEPTH, PKDER_OCTETS};
        unsigned long times;
        pkder_outcome said = counted_check(&task, octets, len, &times);
        CHECK(said.status != PKDER_NO_MEMORY && said.status != PKDER_BAD_CALL);
        if (said.status != PKDER_FAULT) {
            *is_in_der = said.status == PKDER_ACCEPTED;
            *is_read = times > 0;
            if (!*is_read) {
                take_no_memory(&task, octets, len);
            }
            return 1;
        }
    }
    return 0;
}

static void check_file(const char *name) {
    int is_in_der, is_read;
    size_t len = load(name, room, sizeof room);
    if (!check_document(room, len, &is_in_der, &is_read)) {
        return;
    }
    if (is_in_der) {
        printf("%s\t%s\n", is_read ? "read" : "judged", name);
    }
    CHECK(is_in_der || is_read);
    documents++;
}

/* Puts the header of an element in front of its contents, which begin at `at`. */
static uint8_t *put_header(uint8_t identifier, uint8_t *at, const uint8_t *end) {
    at = put_length(at, (size_t)(end - at), FEWEST);
    *--at = identifier;
    return at;
}

/* A document in DER, which is judged as it stands or read. */
static void check_in_der(const uint8_t *at, const uint8_t *end, int is_to_be_read) {
    int is_in_der, is_read;
    CHECK(check_document(at, (size_t)(end - at), &is_in_der, &is_read) && is_in_der && is_read == is_to_be_read);
    documents++;
}

/* A request with an Ed25519 key, whose attributes are INTEGERs, each under an identifier of its own. */
static void check_attributes(void) {
    static const uint8_t before[] = {2, 1, 0, 0x30, 0, 0x30, 0x2A, 0x30, 5, 6, 3, 0x2B, 0x65, 0x70, 3, 0x21, 0};
    static const uint8_t algorithm[] = {0x30, 5, 6, 3, 0x2B, 0x65, 0x70, 3, 0x41, 0};
    static const uint8_t signature[64], key[32];
    uint8_t *end = room + sizeof room, *at = put_octets(end, signature, sizeof signature);
    uint8_t *info_end = at = put_octets(at, algorithm, sizeof algorithm);
    for (unsigned left = ATTRIBUTES; left > 0; left--) {
        const uint8_t high = (uint8_t)(128 + left / 128), low = (uint8_t)(left % 128);
        const uint8_t attribute[] = {0x30, 11, 6, 4, 0x2A, 0x81, high, low, 0x31, 3, 2, 1, 5};
        at = put_octets(at, attribute, sizeof attribute);
    }
    at = put_octets(put_header(0xA0, at, info_end), key, sizeof key);
    at = put_header(0x30, put_octets(at, before, sizeof before), info_end);
    check_in_der(put_header(0x30, at, end), end, 0);
}

/* A package of one Ed25519 key, again and again. */
static void check_keys(void) {
    static const uint8_t before[] = {0x30, 0x2E, 2, 1, 0, 0x30, 5, 6, 3, 0x2B, 0x65, 0x70, 4, 0x22, 4, 0x20};
    static const uint8_t key[32];
    uint8_t *end = room + sizeof room, *at = end;
    for (unsigned left = KEYS; left > 0; left--) {
        at = put_octets(put_octets(at, key, sizeof key), before, sizeof before);
    }
    check_in_der(put_header(0x30, at, end), end, 0);
}

/* An encrypted key with these parameters. */
static void check_parameters(const uint8_t *parameters, size_t len, int is_to_be_read) {
    static const uint8_t algorithm[] = {6, 3, 0x2A, 3, 4}, encrypted[] = {4, 4, 1, 2, 3, 4};
    uint8_t *end = room + sizeof room, *behind = put_octets(end, encrypted, sizeof encrypted);
    uint8_t *at = put_octets(put_octets(behind, parameters, len), algorithm, sizeof algorithm);
    check_in_der(put_header(0x30, put_header(0x30, at, behind), end), end, is_to_be_read);
}

/* SETs in each other, so many. */
static void check_nested(unsigned many, int is_to_be_read) {
    uint8_t sets[2 * PKDER_DEPTH], *end = sets + sizeof sets, *at = end;
    for (unsigned left = many; left > 0; left--) {
        at = put_header(0x31, at, end);
    }
    check_parameters(at, (size_t)(end - at), is_to_be_read);
}

/* Open values of each form: none, a leaf, a SEQUENCE, a SET in order, elements of another class, and SETs in each other
 * within two SEQUENCEs; and what no judge passes, as many containers as there may be, and an identifier of two octets. */
static void check_open_values(void) {
    static const uint8_t null[] = {5, 0}, sequence[] = {0x30, 5, 2, 1, 7, 0x31, 0};
    static const uint8_t set[] = {0x31, 6, 2, 1, 7, 2, 1, 8}, primitive[] = {0x80, 2, 1, 2};
    static const uint8_t constructed[] = {0xA1, 4, 0x80, 0, 5, 0}, tag_31[] = {0x9F, 0x1F, 0};
    check_parameters(NULL, 0, 0);
    check_parameters(null, sizeof null, 0);
    check_parameters(sequence, sizeof sequence, 0);
    check_parameters(set, sizeof set, 0);
    check_parameters(primitive, sizeof primitive, 0);
    check_parameters(constructed, sizeof constructed, 0);
    check_nested(PKDER_DEPTH - 3, 0);
    check_nested(PKDER_DEPTH - 2, 1);
    check_parameters(tag_31, sizeof tag_31, 1);
}

int main(int count, char **names) {
    for (int i = 1; i < count; i++) {
        check_file(names[i]);
    }
    check_attributes();
    check_keys();
    check_open_values();
    printf("%lu documents\n", documents);
    return 0;
}
