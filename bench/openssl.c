// What the benchmarks need of C: values of a type read and written by OpenSSL, the octets of memory that are taken, and
// the processor's time. Not laid out by clang-format, which takes OpenSSL's macros of types for statements.
// clang-format off
#include <malloc.h>
#include <openssl/asn1t.h>
#include <openssl/x509.h>
#include <stdint.h>
#include <stdlib.h>
#include <time.h>

// SET OF OCTET STRING, which OpenSSL sorts
typedef STACK_OF(ASN1_OCTET_STRING) STRINGS;
ASN1_ITEM_TEMPLATE(STRINGS) = ASN1_EX_TEMPLATE_TYPE(ASN1_TFLG_SET_OF, 0, STRINGS, ASN1_OCTET_STRING)
ASN1_ITEM_TEMPLATE_END(STRINGS)

// AsymmetricKeyPackage (RFC 5958 section 2)
typedef STACK_OF(PKCS8_PRIV_KEY_INFO) KEYS;
ASN1_ITEM_TEMPLATE(KEYS) = ASN1_EX_TEMPLATE_TYPE(ASN1_TFLG_SEQUENCE_OF, 0, KEYS, PKCS8_PRIV_KEY_INFO)
ASN1_ITEM_TEMPLATE_END(KEYS)

// ECPrivateKey (RFC 5915 section 3) as it is laid out: EC_PRIVATEKEY isn't public, and d2i_ECPrivateKey makes a key.
typedef struct {
    ASN1_INTEGER *version;
    ASN1_OCTET_STRING *private_key;
    ASN1_OBJECT *curve;
    ASN1_BIT_STRING *public_key;
} EC_LAYOUT;
ASN1_SEQUENCE(EC_LAYOUT) = {
    ASN1_SIMPLE(EC_LAYOUT, version, ASN1_INTEGER),
    ASN1_SIMPLE(EC_LAYOUT, private_key, ASN1_OCTET_STRING),
    ASN1_EXP_OPT(EC_LAYOUT, curve, ASN1_OBJECT, 0),
    ASN1_EXP_OPT(EC_LAYOUT, public_key, ASN1_BIT_STRING, 1),
} ASN1_SEQUENCE_END(EC_LAYOUT)

// SubjectPublicKeyInfo (RFC 5280 section 4.1.2.7) as it is laid out: X509_PUBKEY makes a key.
typedef struct {
    X509_ALGOR *algorithm;
    ASN1_BIT_STRING *public_key;
} PUBLIC_LAYOUT;
ASN1_SEQUENCE(PUBLIC_LAYOUT) = {
    ASN1_SIMPLE(PUBLIC_LAYOUT, algorithm, X509_ALGOR),
    ASN1_SIMPLE(PUBLIC_LAYOUT, public_key, ASN1_BIT_STRING),
} ASN1_SEQUENCE_END(PUBLIC_LAYOUT)

// CertificationRequest (RFC 2986 section 4) as it is laid out: X509_REQ makes a key, and keeps what it read of the
// first field to write it again.
typedef struct {
    ASN1_INTEGER *version;
    X509_NAME *subject;
    PUBLIC_LAYOUT *public_key;
    STACK_OF(X509_ATTRIBUTE) *attributes;
} INFO_LAYOUT;
ASN1_SEQUENCE(INFO_LAYOUT) = {
    ASN1_SIMPLE(INFO_LAYOUT, version, ASN1_INTEGER),
    ASN1_SIMPLE(INFO_LAYOUT, subject, X509_NAME),
    ASN1_SIMPLE(INFO_LAYOUT, public_key, PUBLIC_LAYOUT),
    ASN1_IMP_SET_OF_OPT(INFO_LAYOUT, attributes, X509_ATTRIBUTE, 0),
} ASN1_SEQUENCE_END(INFO_LAYOUT)

typedef struct {
    INFO_LAYOUT *info;
    X509_ALGOR *algorithm;
    ASN1_BIT_STRING *signature;
} REQUEST_LAYOUT;
ASN1_SEQUENCE(REQUEST_LAYOUT) = {
    ASN1_SIMPLE(REQUEST_LAYOUT, info, INFO_LAYOUT),
    ASN1_SIMPLE(REQUEST_LAYOUT, algorithm, X509_ALGOR),
    ASN1_SIMPLE(REQUEST_LAYOUT, signature, ASN1_BIT_STRING),
} ASN1_SEQUENCE_END(REQUEST_LAYOUT)

// The type of a number: the kinds of documents have those of interface/pkder.h. What is inside an OCTET STRING, or a
// container of ASN1_SEQUENCE_ANY, is copied as it is.
static const ASN1_ITEM *type_of(uint32_t number) {
    switch (number) {
    case 1:
        return ASN1_ITEM_rptr(PKCS8_PRIV_KEY_INFO);
    case 2:
        return ASN1_ITEM_rptr(EC_LAYOUT);
    case 3:
        return ASN1_ITEM_rptr(REQUEST_LAYOUT);
    case 4:
        return ASN1_ITEM_rptr(PUBLIC_LAYOUT);
    case 5:
        return ASN1_ITEM_rptr(X509_SIG);
    case 6:
        return ASN1_ITEM_rptr(KEYS);
    case 7:
        return ASN1_ITEM_rptr(STRINGS);
    default:
        return ASN1_ITEM_rptr(ASN1_SEQUENCE_ANY);
    }
}

// Reads the value of a type that `src` holds, and writes its text so many times: the text's length, or that of `src`
// where none is written; 0 where it is refused.
uint64_t openssl_copy(uint32_t type, uint32_t times, const unsigned char *src, size_t length, unsigned char *text) {
    const ASN1_ITEM *item = type_of(type);
    ASN1_VALUE *value = ASN1_item_d2i(NULL, &src, (long)length, item);
    if (value == NULL) {
        return 0;
    }
    long written = (long)length;
    for (; times > 0; times--) {
        unsigned char *to = text;
        written = ASN1_item_i2d(value, &to, item);
    }
    ASN1_item_free(value, item);
    return written < 0 ? 0 : (uint64_t)written;
}

#ifdef PLAIN_MALLOC
// the C library's malloc as it is
void count_memory(void) {}

size_t most_memory(void) {
    return 0;
}
#else
// Octets of memory taken while they are counted, and the most at once. A chunk has 8 octets before those that are
// usable.
static int counts;
static size_t taken, most;

void *__real_malloc(size_t size);
void *__real_realloc(void *old, size_t size);
void __real_free(void *old);

static size_t chunk(void *at) {
    return at == NULL ? 0 : malloc_usable_size(at) + 8;
}

static void add(size_t octets) {
    taken += octets;
    if (taken > most) {
        most = taken;
    }
}

void *__wrap_malloc(size_t size) {
    void *at = __real_malloc(size);
    if (counts) {
        add(chunk(at));
    }
    return at;
}

// Where the octets move, old and new ones are there at once; chunks of 128 KiB and more are moved by mapping pages
// anew.
void *__wrap_realloc(void *old, size_t size) {
    size_t before = counts ? chunk(old) : 0;
    void *at = __real_realloc(old, size);
    if (counts) {
        if (at == old || before >= 128 * 1024) {
            taken -= before;
            add(chunk(at));
        } else {
            add(chunk(at));
            taken -= before;
        }
    }
    return at;
}

void __wrap_free(void *old) {
    if (counts) {
        taken -= chunk(old);
    }
    __real_free(old);
}

void count_memory(void) {
    taken = most = 0;
    counts = 1;
}

size_t most_memory(void) {
    counts = 0;
    return most;
}
#endif

double processor_seconds(void) {
    struct timespec now;
    clock_gettime(CLOCK_THREAD_CPUTIME_ID, &now);
    return (double)now.tv_sec + (double)now.tv_nsec / 1e9;
}
