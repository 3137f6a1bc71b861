package pkder;

/** What a document is; the caller says. */
public enum Kind {
    /** OneAsymmetricKey, PKCS #8 (RFC 5958): what PEM calls PRIVATE KEY. */
    KEY(1),
    /** ECPrivateKey (RFC 5915): EC PRIVATE KEY. */
    EC(2),
    /** CertificationRequest, PKCS #10 (RFC 2986): CERTIFICATE REQUEST. */
    REQUEST(3),
    /** SubjectPublicKeyInfo (RFC 5280): PUBLIC KEY. */
    PUBLIC(4),
    /** EncryptedPrivateKeyInfo (RFC 5958): ENCRYPTED PRIVATE KEY; nothing is decrypted. */
    ENCRYPTED(5),
    /** AsymmetricKeyPackage (RFC 5958): private keys, at least one. */
    PACKAGE(6);

    private final int number;

    Kind(int number) {
        this.number = number;
    }

    /**
     * Answers the number that pkder.h has for it, which never changes.
     *
     * @return the number
     */
    public int number() {
        return number;
    }
}
