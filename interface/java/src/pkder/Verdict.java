package pkder;

import java.util.OptionalLong;

/**
 * Whether a sound document is in DER. It is no truth value, since a document in BER is sound, too: ask {@link #isDer},
 * or call {@link Pkder#requireDer(Kind, byte[])}, which refuses BER.
 */
public final class Verdict {
    private static final long NOWHERE = -1;
    static final Verdict DER = new Verdict(NOWHERE);

    private final long at;

    private Verdict(long at) {
        this.at = at;
    }

    static Verdict differsAt(long at) {
        return new Verdict(at);
    }

    /**
     * Says whether the document is in DER.
     *
     * @return whether it is
     */
    public boolean isDer() {
        return at == NOWHERE;
    }

    /**
     * Answers the first place where the document differs from its DER encoding, in octets from its start.
     *
     * @return the place, or nothing where the document is in DER
     */
    public OptionalLong differsAt() {
        return isDer() ? OptionalLong.empty() : OptionalLong.of(at);
    }

    @Override
    public boolean equals(Object other) {
        return other instanceof Verdict && at == ((Verdict) other).at;
    }

    @Override
    public int hashCode() {
        return Long.hashCode(at);
    }

    /** The line that the program prints. */
    @Override
    public String toString() {
        return isDer() ? "DER" : "not DER at " + at;
    }
}
