package pkder;

/** A part of a certification request. */
public enum Part {
    /** The DER encoding of certificationRequestInfo, which the signature covers. */
    INFO(1),
    /** The DER encoding of signatureAlgorithm. */
    ALGORITHM(2),
    /** The DER encoding of subjectPKInfo, a document of {@link Kind#PUBLIC}. */
    SUBJECT_KEY(3),
    /** The octets of signature, without the number of unused bits. */
    SIGNATURE(4),
    /** The octets of certificationRequestInfo as they came, in DER or not, which some signers sign instead. */
    RECEIVED(5);

    private final int number;

    Part(int number) {
        this.number = number;
    }

    /**
     * Answers the number that pkder.h has for it, which never changes.
     *
     * @return the number
     */
    public int number() {
        return number;
    }
}
