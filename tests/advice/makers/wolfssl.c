// wolfssl.c: the forms that users of wolfSSL have.
#include <wolfssl/options.h>
#include <wolfssl/wolfcrypt/asn.h>
#include <wolfssl/wolfcrypt/asn_public.h>
#include <wolfssl/wolfcrypt/ecc.h>
#include <wolfssl/wolfcrypt/ed25519.h>
#include <wolfssl/wolfcrypt/random.h>
#include <wolfssl/wolfcrypt/rsa.h>

#include <stdio.h>
#include <stdlib.h>
#include <string.h>

static WC_RNG rng;
static byte octets[8192], more[16384];

static void keep(const char *name, const byte *from, int size) {
    FILE *file = size > 0 ? fopen(name, "wb") : NULL;
    if (!file) {
        fprintf(stderr, "%s: %d\n", name, size);
        return;
    }
    fwrite(from, 1, (size_t)size, file);
    fclose(file);
}

static void both(const char *name, const byte *from, int size, int type) {
    char path[99];
    snprintf(path, sizeof path, "%s.der", name);
    keep(path, from, size);
    snprintf(path, sizeof path, "%s.pem", name);
    if (size > 0)
        keep(path, more, wc_DerToPem(from, (word32)size, more, sizeof more, type));
}

static void pkcs8(const char *name, int size, int oid, const byte *curve, word32 curve_size) {
    static byte around[8192];
    word32 room = sizeof around;
    int made = wc_CreatePKCS8Key(around, &room, octets, (word32)size, oid, curve, curve_size);
    both(name, around, made, PKCS8_PRIVATEKEY_TYPE);
}

#ifdef WOLFSSL_CERT_REQ
static void request(const char *name, RsaKey *rsa, ecc_key *ecc, ed25519_key *edwards, int version) {
    Cert cert;
    wc_InitCert(&cert);
    if (version >= 0)
        cert.version = version;
    strncpy(cert.subject.commonName, "www.example.org", CTC_NAME_SIZE);
    cert.sigType = rsa ? CTC_SHA256wRSA : ecc ? CTC_SHA256wECDSA : CTC_ED25519;
    int type = rsa ? RSA_TYPE : ecc ? ECC_TYPE : ED25519_TYPE;
    void *key = rsa ? (void *)rsa : ecc ? (void *)ecc : (void *)edwards;
    int size = wc_MakeCertReq_ex(&cert, octets, sizeof octets, type, key);
    if (size > 0)
        size = wc_SignCert_ex(cert.bodySz, cert.sigType, octets, sizeof octets, type, key, &rng);
    both(name, octets, size, CERTREQ_TYPE);
}
#else
#define request(name, rsa, ecc, edwards, version) ((void)0)
#endif

static void of_rsa(void) {
    RsaKey key;
    wc_InitRsaKey(&key, NULL);
    if (wc_MakeRsaKey(&key, 2048, WC_RSA_EXPONENT, &rng))
        return;
    int size = wc_RsaKeyToDer(&key, octets, sizeof octets);
    both("private-rsa-pkcs1", octets, size, PRIVATEKEY_TYPE);
    pkcs8("private-rsa", size, RSAk, NULL, 0);
    both("public-rsa", octets, wc_RsaKeyToPublicDer(&key, octets, sizeof octets), PUBLICKEY_TYPE);
    request("request-rsa", &key, NULL, NULL, -1);
    request("request-rsa-0", &key, NULL, NULL, 0);
}

static void of_curve(const char *curve, int size_of_key, int number) {
    ecc_key key;
    char name[99];
    wc_ecc_init(&key);
    if (wc_ecc_make_key(&rng, size_of_key, &key))
        return;
    snprintf(name, sizeof name, "private-%s-%d-sec1", curve, number);
    both(name, octets, wc_EccKeyToDer(&key, octets, sizeof octets), ECC_PRIVATEKEY_TYPE);
    snprintf(name, sizeof name, "private-%s-%d", curve, number);
    word32 room = sizeof octets;
    int made = wc_EccKeyToPKCS8(&key, octets, &room);
    both(name, octets, made, PKCS8_PRIVATEKEY_TYPE);
    room = sizeof octets;
    snprintf(name, sizeof name, "private-%s-%d-alone", curve, number);
    both(name, octets, wc_EccPrivateKeyToPKCS8(&key, octets, &room), PKCS8_PRIVATEKEY_TYPE);
    snprintf(name, sizeof name, "public-%s-%d", curve, number);
    both(name, octets, wc_EccPublicKeyToDer(&key, octets, sizeof octets, 1), PUBLICKEY_TYPE);
    snprintf(name, sizeof name, "request-%s-%d", curve, number);
    request(name, NULL, &key, NULL, -1);
    snprintf(name, sizeof name, "request-%s-%d-0", curve, number);
    request(name, NULL, &key, NULL, 0);
}

static void of_edwards(int number) {
    ed25519_key key;
    char name[99];
    wc_ed25519_init(&key);
    if (wc_ed25519_make_key(&rng, ED25519_KEY_SIZE, &key))
        return;
    snprintf(name, sizeof name, "private-ed25519-%d", number);
    both(name, octets, wc_Ed25519PrivateKeyToDer(&key, octets, sizeof octets), PKCS8_PRIVATEKEY_TYPE);
    snprintf(name, sizeof name, "private-ed25519-%d-with-public", number);
    both(name, octets, wc_Ed25519KeyToDer(&key, octets, sizeof octets), PKCS8_PRIVATEKEY_TYPE);
    snprintf(name, sizeof name, "public-ed25519-%d", number);
    both(name, octets, wc_Ed25519PublicKeyToDer(&key, octets, sizeof octets, 1), PUBLICKEY_TYPE);
    snprintf(name, sizeof name, "request-ed25519-%d", number);
    request(name, NULL, NULL, &key, -1);
}

int main(void) {
    if (wc_InitRng(&rng))
        return 1;
    of_rsa();
    for (int number = 1; number <= 2; number++) {
        of_curve("p256", 32, number);
        of_curve("p384", 48, number);
        of_curve("p521", 66, number);
        of_edwards(number);
    }
    return 0;
}
