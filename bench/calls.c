/* calls KIND FILE CALL TIMES: makes a call on a document so many times, for whoever counts instructions; those of
 * OpenSSL are there with -DOPENSSL (openssl.c, -lcrypto). With the call `allocations` (-DCOUNTED, linked as counted.h
 * says) it prints how often check, normalise and same each ask for memory. What takes a document copies it nowhere
 * beforehand; `same` has a copy of it as the second one, and `copy` is the C library's copying alone. */
#ifdef COUNTED
#include "counted.h"
#else
#include "trial.h"
#endif

enum { ROOM = 1 << 20 };

static uint8_t src[ROOM], other[ROOM], dst[PKDER_ROOM(ROOM)];
static size_t len;
static uint32_t kind;

static int by_check(void) {
    uint32_t status = pkder_check(kind, PKDER_DEPTH, PKDER_OCTETS, src, len).status;
    return status == PKDER_ACCEPTED || status == PKDER_NOT_DER;
}

static int by_normalise(void) {
    return pkder_normalise(kind, PKDER_DEPTH, PKDER_OCTETS, src, len, dst, sizeof dst).status == PKDER_ACCEPTED;
}

static int by_same(void) {
    return pkder_same(kind, PKDER_DEPTH, PKDER_OCTETS, src, len, other, len).status == PKDER_ACCEPTED;
}

/* (by a pointer that the compiler doesn't see through, so that it is a call) */
static void *(*volatile copy)(void *, const void *, size_t) = memcpy;

static int by_copy(void) {
    return copy(dst, src, len) != NULL;
}

#ifdef OPENSSL
uint64_t openssl_copy(uint32_t type, uint32_t times, const unsigned char *octets, size_t length, unsigned char *text);

static int by_openssl_reading(void) {
    return openssl_copy(kind, 0, src, len, dst) > 0;
}

static int by_openssl(void) {
    return openssl_copy(kind, 1, src, len, dst) > 0;
}
#endif

static const struct {
    const char *name;
    int (*call)(void);
} calls[] = {
    {"check", by_check},
    {"normalise", by_normalise},
    {"same", by_same},
    {"copy", by_copy},
#ifdef OPENSSL
    {"openssl-read", by_openssl_reading},
    {"openssl-read-write", by_openssl},
#endif
};
#define CALLS (sizeof calls / sizeof *calls)

#ifdef COUNTED
static void print_allocations(void) {
    for (size_t i = 0; i < 3; i++) {
        asked = 0;
        CHECK(calls[i].call());
        printf(i > 0 ? " %lu" : "%lu", asked);
    }
    puts("");
}
#endif

static void repeat(const char *name, long times) {
    for (size_t i = 0; i < CALLS; i++) {
        for (long left = strcmp(calls[i].name, name) == 0 ? times : 0; left > 0; left--) {
            CHECK(calls[i].call());
        }
    }
}

int main(int count, char **words) {
    kind = count == 5 ? number_of(words[1], kinds) : 0;
    if (kind == 0) {
        fputs("calls KIND FILE CALL TIMES\n", stderr);
        return 2;
    }
    len = load(words[2], src, sizeof src);
    memcpy(other, src, len);
#ifdef COUNTED
    if (strcmp(words[3], "allocations") == 0) {
        print_allocations();
        return 0;
    }
#endif
    repeat(words[3], atol(words[4]));
    return 0;
}
