/* NSS, by the calls that import a private key and decode a public key or a request. It writes none of them anew.
 * (run.py says what a driver answers) */
#include "driver.h"

#include <cert.h>
#include <keyhi.h>
#include <nss.h>
#include <pk11pub.h>
#include <secasn1.h>
#include <secder.h>

/* Whether it takes a document. */
static int is_taken(const char *kind, size_t size) {
    SECItem given = {siBuffer, document, (unsigned)size};
    int found = 0;
    if (!strcmp(kind, "key")) {
        PK11SlotInfo *slot = PK11_GetInternalSlot();
        SECKEYPrivateKey *key = NULL;
        found = PK11_ImportDERPrivateKeyInfoAndReturnKey(slot, &given, NULL, NULL, PR_FALSE, PR_TRUE, KU_ALL, &key,
                                                         NULL) == SECSuccess;
        SECKEY_DestroyPrivateKey(key);
        PK11_FreeSlot(slot);
    } else if (!strcmp(kind, "public")) {
        CERTSubjectPublicKeyInfo *info = SECKEY_DecodeDERSubjectPublicKeyInfo(&given);
        SECKEYPublicKey *key = info ? SECKEY_ExtractPublicKey(info) : NULL;
        found = key != NULL;
        SECKEY_DestroyPublicKey(key);
        SECKEY_DestroySubjectPublicKeyInfo(info);
    } else {
        PLArenaPool *arena = PORT_NewArena(DER_DEFAULT_CHUNKSIZE);
        CERTSignedData signed_data;
        CERTCertificateRequest request;
        memset(&signed_data, 0, sizeof signed_data);
        memset(&request, 0, sizeof request);
        found = SEC_ASN1DecodeItem(arena, &signed_data, SEC_ASN1_GET(CERT_SignedDataTemplate), &given) == SECSuccess &&
                SEC_ASN1DecodeItem(arena, &request, SEC_ASN1_GET(CERT_CertificateRequestTemplate), &signed_data.data) ==
                    SECSuccess;
        PORT_FreeArena(arena, PR_FALSE);
    }
    return found;
}

int main(void) {
    size_t size;
    const char *kind;
    NSS_NoDB_Init(NULL);
    tell_about("NSS", NSS_GetVersion(),
               "PK11_ImportDERPrivateKeyInfoAndReturnKey, SECKEY_DecodeDERSubjectPublicKeyInfo, SEC_ASN1DecodeItem",
               "\"key\", \"request\", \"public\"");
    while ((kind = next_document(&size))) {
        tell(is_taken(kind, size), NULL, 0);
    }
    return 0;
}
