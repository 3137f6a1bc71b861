package pkder;

/** What the octets of a known extension, or of a public key of RSA, are as a value of their type. */
public enum Carried {
    /** A value in DER. */
    DER,
    /** A value in another encoding. */
    NOT_DER,
    /** None. */
    REFUSED
}
