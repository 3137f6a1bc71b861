package pkder;

/** The limits of what is read: the depth of nesting, and the octets of a document and of its DER encoding. */
public final class Limits {
    /** The limits unless said otherwise: a depth of 32, and 1,048,576 octets. */
    public static final Limits USUAL = new Limits(32, 1_048_576);

    private static final int MOST_DEPTH = 64;

    private final int depth;
    private final int octets;

    /**
     * Makes limits.
     *
     * @param depth the depth of nesting, 1 to 64; the outermost element is at depth 1
     * @param octets the octets of a document, and of its DER encoding, 1 to 2147483647
     * @throws IllegalArgumentException where one of them is out of range
     */
    public Limits(int depth, int octets) {
        if (depth < 1 || depth > MOST_DEPTH) {
            throw new IllegalArgumentException("a depth is 1 to " + MOST_DEPTH + ", not " + depth);
        }
        if (octets < 1) {
            throw new IllegalArgumentException("octets are 1 to " + Integer.MAX_VALUE + ", not " + octets);
        }
        this.depth = depth;
        this.octets = octets;
    }

    /**
     * Answers the depth of nesting.
     *
     * @return the depth
     */
    public int depth() {
        return depth;
    }

    /**
     * Answers the octets of a document, and of its DER encoding.
     *
     * @return the number of octets
     */
    public int octets() {
        return octets;
    }

    @Override
    public boolean equals(Object other) {
        return other instanceof Limits && depth == ((Limits) other).depth && octets == ((Limits) other).octets;
    }

    @Override
    public int hashCode() {
        return 31 * depth + octets;
    }

    @Override
    public String toString() {
        return "depth " + depth + ", " + octets + " octets";
    }
}
