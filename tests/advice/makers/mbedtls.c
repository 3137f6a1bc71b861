// mbedtls.c: the forms that users of Mbed TLS have.
#include <mbedtls/ctr_drbg.h>
#include <mbedtls/ecp.h>
#include <mbedtls/entropy.h>
#include <mbedtls/pk.h>
#include <mbedtls/rsa.h>
#include <mbedtls/x509_csr.h>

#include <stdio.h>
#include <string.h>

static mbedtls_ctr_drbg_context chance;
static unsigned char octets[16384];

static void keep(const char *want, const char *name, const char *end, const unsigned char *from, size_t size) {
    char path[99];
    snprintf(path, sizeof path, "%s-%s.%s", want, name, end);
    FILE *file = fopen(path, "wb");
    if (!file)
        return;
    fwrite(from, 1, size, file);
    fclose(file);
}

// what is written in DER stands at the end of the room
static void der(const char *want, const char *name, int size) {
    if (size > 0)
        keep(want, name, "der", octets + sizeof octets - size, (size_t)size);
}

static void pem(const char *want, const char *name, int status) {
    if (!status)
        keep(want, name, "pem", octets, strlen((char *)octets));
}

static void forms(const char *name, mbedtls_pk_context *key) {
    mbedtls_x509write_csr asked;
    der("private", name, mbedtls_pk_write_key_der(key, octets, sizeof octets));
    pem("private", name, mbedtls_pk_write_key_pem(key, octets, sizeof octets));
    der("public", name, mbedtls_pk_write_pubkey_der(key, octets, sizeof octets));
    pem("public", name, mbedtls_pk_write_pubkey_pem(key, octets, sizeof octets));
    mbedtls_x509write_csr_init(&asked);
    mbedtls_x509write_csr_set_md_alg(&asked, MBEDTLS_MD_SHA256);
    mbedtls_x509write_csr_set_key(&asked, key);
    mbedtls_x509write_csr_set_subject_name(&asked, "CN=www.example.org,O=Example,C=DE");
    mbedtls_x509write_csr_set_key_usage(&asked, MBEDTLS_X509_KU_DIGITAL_SIGNATURE);
    mbedtls_x509write_csr_set_ns_cert_type(&asked, MBEDTLS_X509_NS_CERT_TYPE_SSL_SERVER);
    der("request", name, mbedtls_x509write_csr_der(&asked, octets, sizeof octets, mbedtls_ctr_drbg_random, &chance));
    pem("request", name, mbedtls_x509write_csr_pem(&asked, octets, sizeof octets, mbedtls_ctr_drbg_random, &chance));
}

static void of_curve(const char *curve, mbedtls_ecp_group_id group, int number) {
    char name[99];
    mbedtls_pk_context key;
    mbedtls_pk_init(&key);
    mbedtls_pk_setup(&key, mbedtls_pk_info_from_type(MBEDTLS_PK_ECKEY));
    if (mbedtls_ecp_gen_key(group, mbedtls_pk_ec(key), mbedtls_ctr_drbg_random, &chance))
        return;
    snprintf(name, sizeof name, "%s-%d", curve, number);
    forms(name, &key);
}

int main(void) {
    mbedtls_entropy_context source;
    mbedtls_entropy_init(&source);
    mbedtls_ctr_drbg_init(&chance);
    if (mbedtls_ctr_drbg_seed(&chance, mbedtls_entropy_func, &source, NULL, 0))
        return 1;
    mbedtls_pk_context key;
    mbedtls_pk_init(&key);
    mbedtls_pk_setup(&key, mbedtls_pk_info_from_type(MBEDTLS_PK_RSA));
    if (!mbedtls_rsa_gen_key(mbedtls_pk_rsa(key), mbedtls_ctr_drbg_random, &chance, 2048, 65537))
        forms("rsa", &key);
    for (int number = 1; number <= 2; number++) {
        of_curve("p256", MBEDTLS_ECP_DP_SECP256R1, number);
        of_curve("p384", MBEDTLS_ECP_DP_SECP384R1, number);
        of_curve("p521", MBEDTLS_ECP_DP_SECP521R1, number);
        of_curve("k256", MBEDTLS_ECP_DP_SECP256K1, number);
    }
    return 0;
}
