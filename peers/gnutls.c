/* GnuTLS, by its imports of DER and exports. (run.py says what a driver answers) */
#include "driver.h"

#include <gnutls/abstract.h>
#include <gnutls/x509.h>

/* Reads a document of a kind, and writes it anew. */
static int rewritten(const char *kind, gnutls_datum_t given, gnutls_datum_t *out) {
    int error;
    if (!strcmp(kind, "request")) {
        gnutls_x509_crq_t request;
        gnutls_x509_crq_init(&request);
        error = gnutls_x509_crq_import(request, &given, GNUTLS_X509_FMT_DER);
        error = error ? error : gnutls_x509_crq_export2(request, GNUTLS_X509_FMT_DER, out);
        gnutls_x509_crq_deinit(request);
    } else if (!strcmp(kind, "public")) {
        gnutls_pubkey_t key;
        gnutls_pubkey_init(&key);
        error = gnutls_pubkey_import(key, &given, GNUTLS_X509_FMT_DER);
        error = error ? error : gnutls_pubkey_export2(key, GNUTLS_X509_FMT_DER, out);
        gnutls_pubkey_deinit(key);
    } else {
        gnutls_x509_privkey_t key;
        gnutls_x509_privkey_init(&key);
        int is_ec = kind[0] == 'e' && kind[1] == 'c', is_key = kind[0] == 'k';
        error = is_ec ? gnutls_x509_privkey_import(key, &given, GNUTLS_X509_FMT_DER)
                      : gnutls_x509_privkey_import_pkcs8(key, &given, GNUTLS_X509_FMT_DER, is_key ? NULL : "pkder",
                                                         is_key ? GNUTLS_PKCS_PLAIN : 0);
        if (!error && is_ec) {
            error = gnutls_x509_privkey_export2(key, GNUTLS_X509_FMT_DER, out);
        } else if (!error && is_key) {
            error = gnutls_x509_privkey_export2_pkcs8(key, GNUTLS_X509_FMT_DER, NULL, GNUTLS_PKCS_PLAIN, out);
        }
        gnutls_x509_privkey_deinit(key);
    }
    return error;
}

int main(void) {
    size_t size;
    const char *kind;
    tell_about("GnuTLS, the library", gnutls_check_version(NULL), "gnutls_.._import, gnutls_.._export2",
               "\"key\", \"ec\", \"request\", \"public\", \"encrypted\"");
    while ((kind = next_document(&size))) {
        gnutls_datum_t written = {NULL, 0};
        int error = rewritten(kind, (gnutls_datum_t){document, (unsigned)size}, &written);
        tell(!error, written.data, written.size);
        gnutls_free(written.data);
    }
    return 0;
}
