/* Mbed TLS, by its parsers of DER; it writes public keys anew. (run.py says what a driver answers) */
#include "driver.h"

#include <mbedtls/pk.h>
#include <mbedtls/version.h>
#include <mbedtls/x509_csr.h>

static unsigned char written[1 << 16];

/* Reads a document, and returns how many octets it writes of it; a number below 0 where it is refused. */
static int rewritten(const char *kind, size_t size) {
    int found = -1;
    mbedtls_pk_context key;
    mbedtls_x509_csr request;
    mbedtls_pk_init(&key);
    mbedtls_x509_csr_init(&request);
    if (!strcmp(kind, "request")) {
        found = mbedtls_x509_csr_parse_der(&request, document, size);
    } else if (!strcmp(kind, "public")) {
        found = mbedtls_pk_parse_public_key(&key, document, size);
        found = found ? found : mbedtls_pk_write_pubkey_der(&key, written, sizeof written);
    } else if (!strcmp(kind, "encrypted")) {
        found = mbedtls_pk_parse_key(&key, document, size, (const unsigned char *)"pkder", 5);
    } else {
        found = mbedtls_pk_parse_key(&key, document, size, NULL, 0);
    }
    mbedtls_x509_csr_free(&request);
    mbedtls_pk_free(&key);
    return found;
}

int main(void) {
    size_t size;
    const char *kind;
    tell_about("Mbed TLS", MBEDTLS_VERSION_STRING,
               "mbedtls_pk_parse_key, .._parse_public_key, mbedtls_x509_csr_parse_der",
               "\"key\", \"ec\", \"request\", \"public\", \"encrypted\"");
    while ((kind = next_document(&size))) {
        int length = rewritten(kind, size);
        tell(length >= 0, written + sizeof written - (length > 0 ? length : 0), length > 0 ? (size_t)length : 0);
    }
    return 0;
}
