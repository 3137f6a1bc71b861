/* OpenSSL's library, by d2i and i2d of each type; a key has to be one that EVP takes, too. All octets have to be taken.
 * (run.py says what a driver answers) */
#include "driver.h"

#include <openssl/evp.h>
#include <openssl/opensslv.h>
#include <openssl/pkcs12.h>
#include <openssl/x509.h>

/* Writes a document of a kind anew; a number below 0 where it is refused. */
static int rewritten(const char *kind, size_t size, unsigned char **out) {
    const unsigned char *at = document, *end = document + size;
    int length = -1;
    if (!strcmp(kind, "key")) {
        PKCS8_PRIV_KEY_INFO *info = d2i_PKCS8_PRIV_KEY_INFO(NULL, &at, (long)size);
        EVP_PKEY *key = info ? EVP_PKCS82PKEY(info) : NULL;
        length = key && at == end ? i2d_PKCS8_PRIV_KEY_INFO(info, out) : -1;
        EVP_PKEY_free(key);
        PKCS8_PRIV_KEY_INFO_free(info);
    } else if (!strcmp(kind, "ec") || !strcmp(kind, "public")) {
        int is_public = kind[0] == 'p';
        EVP_PKEY *key =
            is_public ? d2i_PUBKEY(NULL, &at, (long)size) : d2i_PrivateKey(EVP_PKEY_EC, NULL, &at, (long)size);
        length = key && at == end ? (is_public ? i2d_PUBKEY(key, out) : i2d_PrivateKey(key, out)) : -1;
        EVP_PKEY_free(key);
    } else if (!strcmp(kind, "request")) {
        X509_REQ *request = d2i_X509_REQ(NULL, &at, (long)size);
        length = request && at == end ? i2d_X509_REQ(request, out) : -1;
        X509_REQ_free(request);
    } else {
        X509_SIG *encrypted = d2i_X509_SIG(NULL, &at, (long)size);
        length = encrypted && at == end ? i2d_X509_SIG(encrypted, out) : -1;
        X509_SIG_free(encrypted);
    }
    return length;
}

int main(void) {
    size_t size;
    const char *kind;
    tell_about("OpenSSL, the library", OPENSSL_VERSION_STR, "d2i, EVP_PKCS82PKEY, i2d",
               "\"key\", \"ec\", \"request\", \"public\", \"encrypted\"");
    while ((kind = next_document(&size))) {
        unsigned char *written = NULL;
        int length = rewritten(kind, size, &written);
        tell(length >= 0, written, length > 0 ? (size_t)length : 0);
        OPENSSL_free(written);
    }
    return 0;
}
