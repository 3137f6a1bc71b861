/* bench KIND FILE: a row of a table, the file, its octets, and the least time of a call in microseconds of the
 * processor, for each call below; those of OpenSSL (libssl-dev: -lcrypto) read the same octets, and write them where
 * they are so named. KIND is key, request or public. OpenSSL copies what is inside privateKey as it is, makes a key of
 * a public key, and keeps what it read of a request to write it again; so it does less here and more there.
 * bench KIND FILE CALL TIMES: makes the call so many times, for whoever counts instructions. */
#define _DEFAULT_SOURCE
#include <openssl/x509.h>
#include <time.h>

#include "trial.h"

#define ROOM 65536
#define ROUNDS 60
#define CALLS (sizeof calls / sizeof *calls)

static uint8_t src[ROOM], dst[PKDER_ROOM(ROOM)];
static size_t len;
static uint32_t kind;

static double seconds(void) {
    struct timespec now;
    clock_gettime(CLOCK_THREAD_CPUTIME_ID, &now);
    return (double)now.tv_sec + (double)now.tv_nsec / 1e9;
}

static int by_check(void) {
    uint32_t status = pkder_check(kind, PKDER_DEPTH, PKDER_OCTETS, src, len).status;
    return status == PKDER_ACCEPTED || status == PKDER_NOT_DER;
}

static int by_normalise(void) {
    return pkder_normalise(kind, PKDER_DEPTH, PKDER_OCTETS, src, len, dst, sizeof dst).status == PKDER_ACCEPTED;
}

static int by_show(void) {
    return pkder_show(kind, PKDER_DEPTH, PKDER_OCTETS, src, len, dst, sizeof dst).status == PKDER_ACCEPTED;
}

/* Reads by the reader of a type, writes by its writer where asked to, and frees. */
#define BY(name, type, read, write, end)                                                                               \
    static int name(int writes) {                                                                                      \
        const unsigned char *from = src;                                                                               \
        unsigned char *to = dst;                                                                                       \
        type *value = read(NULL, &from, (long)len);                                                                    \
        int is_good = value != NULL && (!writes || write(value, &to) > 0);                                             \
        end(value);                                                                                                    \
        return is_good;                                                                                                \
    }

BY(openssl_key, PKCS8_PRIV_KEY_INFO, d2i_PKCS8_PRIV_KEY_INFO, i2d_PKCS8_PRIV_KEY_INFO, PKCS8_PRIV_KEY_INFO_free)
BY(openssl_request, X509_REQ, d2i_X509_REQ, i2d_X509_REQ, X509_REQ_free)
BY(openssl_public, X509_PUBKEY, d2i_X509_PUBKEY, i2d_X509_PUBKEY, X509_PUBKEY_free)

static int openssl_call(int writes) {
    switch (kind) {
    case PKDER_KEY:
        return openssl_key(writes);
    case PKDER_REQUEST:
        return openssl_request(writes);
    default:
        return openssl_public(writes);
    }
}

static int by_openssl_reading(void) {
    return openssl_call(0);
}

static int by_openssl(void) {
    return openssl_call(1);
}

static const struct {
    const char *name;
    int (*call)(void);
} calls[] = {
    {"check", by_check},
    {"normalise", by_normalise},
    {"show", by_show},
    {"openssl-read", by_openssl_reading},
    {"openssl-read-write", by_openssl},
};

/* The least time of each call, the calls taking turns, so that what disturbs one disturbs all. */
static void print_times(void) {
    double least[CALLS];
    for (int round = 0; round < ROUNDS; round++) {
        for (size_t i = 0; i < CALLS; i++) {
            double began = seconds();
            for (int times = 0; times < 100; times++) {
                CHECK(calls[i].call());
            }
            double took = (seconds() - began) / 100;
            least[i] = round > 0 && least[i] < took ? least[i] : took;
        }
    }
    for (size_t i = 0; i < CALLS; i++) {
        printf(" %.2f |", least[i] * 1e6);
    }
}

static void repeat(const char *name, int times) {
    for (size_t i = 0; i < CALLS; i++) {
        for (int left = strcmp(calls[i].name, name) == 0 ? times : 0; left > 0; left--) {
            CHECK(calls[i].call());
        }
    }
}

int main(int count, char **words) {
    kind = count != 3 && count != 5 ? 0 : number_of(words[1], kinds);
    if (kind != PKDER_KEY && kind != PKDER_REQUEST && kind != PKDER_PUBLIC) {
        fputs("bench KIND FILE [CALL TIMES], the kind being key, request or public\n", stderr);
        return 2;
    }
    len = load(words[2], src, sizeof src);
    if (count == 5) {
        repeat(words[3], atoi(words[4]));
        return 0;
    }
    printf("| %s | %zu |", words[2], len);
    print_times();
    puts("");
    return 0;
}
