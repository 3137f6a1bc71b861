package pkder;

/** Why a document is refused. docs/manual.md has what each reason often comes from. */
public enum Reason {
    /** The octets end at the place where one is needed. */
    TRUNCATED(1),
    /** An element reaches past the limit of octets. */
    TOO_LONG(2),
    /** Identifier octets that are no tag, or a number of 2^28 or more. */
    BAD_TAG(3),
    /** An element reaches past the end of a container around it. */
    PAST_END(4),
    /** End-of-contents octets where none may stand, or half of them. */
    BAD_END(5),
    /** An element is nested deeper than the limit. */
    TOO_DEEP(6),
    /** An element of another tag is due. */
    WRONG_TAG(7),
    /** An element stands where none is due. */
    EXTRA(8),
    /** An element stands there that this profile leaves out. */
    LEFT_OUT(9),
    /** An element is primitive where constructed is due, or the other way round. */
    WRONG_FORM(10),
    /** Length octets that are not used, or no length in a primitive element. */
    BAD_LENGTH(11),
    /** A container ends where an element is due. */
    MISSING(12),
    /** Contents that are no INTEGER or ENUMERATED. */
    BAD_INTEGER(13),
    /** Contents that are no BOOLEAN. */
    BAD_BOOLEAN(14),
    /** A NULL with contents. */
    BAD_NULL(15),
    /** Contents that are no BIT STRING. */
    BAD_BITS(16),
    /** Contents that are no OBJECT IDENTIFIER. */
    BAD_OID(17),
    /** A UTF8String that is not UTF-8. */
    BAD_TEXT(18),
    /** A SET OF without members where one is due. */
    EMPTY_SET(19),
    /** A version that its type doesn't have. */
    VERSION(20),
    /** Parameters that do not go with the algorithm. */
    PARAMETERS(21),
    /** A fault of the octets inside an OCTET STRING. */
    INNER(22),
    /** A curve inside that is not the container's. */
    CURVE(23),
    /** A key of the wrong length. */
    KEY_LENGTH(24),
    /** A version that does not go with the fields. */
    VERSION_RULE(25),
    /** The DER encoding is longer than the limit of octets. */
    TEXT_TOO_LONG(26),
    /** The octets before the place are a document, and more follow. */
    TRAILING(27),
    /** A reason that this package has no name for, of a later library: {@link Fault#reasonName} has its name. */
    UNKNOWN(0);

    private static final Reason[] REASONS = values();

    private final int number;

    Reason(int number) {
        this.number = number;
    }

    static Reason of(int number) {
        for (Reason reason : REASONS) {
            if (reason.number == number) {
                return reason;
            }
        }
        return UNKNOWN;
    }

    /**
     * Answers the number that pkder.h has for it, which never changes; 0 of {@link #UNKNOWN}.
     *
     * @return the number
     */
    public int number() {
        return number;
    }
}
