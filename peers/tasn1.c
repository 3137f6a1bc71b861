/* libtasn1, by asn1_der_decoding and asn1_der_coding of the types of tasn1.asn. (run.py says what a driver answers) */
#include "driver.h"

#include <libtasn1.h>

static const char *const types[][2] = {
    {"key", "Types.OneAsymmetricKey"},
    {"ec", "Types.ECPrivateKey"},
    {"request", "Types.CertificationRequest"},
    {"public", "Types.SubjectPublicKeyInfo"},
    {"encrypted", "Types.EncryptedPrivateKeyInfo"},
    {"package", "Types.AsymmetricKeyPackage"},
};
static unsigned char written[1 << 19];

int main(int count, char **words) {
    size_t size;
    const char *kind;
    char why[ASN1_MAX_ERROR_DESCRIPTION_SIZE];
    asn1_node definitions = NULL;
    if (count != 2 || asn1_parser2tree(words[1], &definitions, why) != ASN1_SUCCESS) {
        return 1;
    }
    printf("{\"name\": \"libtasn1\", \"version\": \"%s\", \"call\": \"%s\", \"kinds\": [%s], \"inside\": false}\n",
           asn1_check_version(NULL), "asn1_der_decoding, asn1_der_coding",
           "\"key\", \"ec\", \"request\", \"public\", \"encrypted\", \"package\"");
    fflush(stdout);
    while ((kind = next_document(&size))) {
        asn1_node found = NULL;
        int length = sizeof written;
        size_t at = 0;
        while (strcmp(types[at][0], kind) != 0) {
            at++;
        }
        asn1_create_element(definitions, types[at][1], &found);
        int is_taken = asn1_der_decoding(&found, document, (int)size, NULL) == ASN1_SUCCESS;
        int is_written = is_taken && asn1_der_coding(found, "", written, &length, NULL) == ASN1_SUCCESS;
        tell(is_taken, written, is_written ? (size_t)length : 0);
        asn1_delete_structure(&found);
    }
    return 0;
}
