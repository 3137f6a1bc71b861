package pkder;

import java.io.Serializable;
import java.util.Objects;
import java.util.Optional;

/** The first fault of a document that is refused. */
public final class Fault implements Serializable {
    private static final long serialVersionUID = 1;

    private final int which;
    private final long at;
    private final Reason reason;
    private final String reasonName;
    private final Fault inside;

    Fault(int which, long at, Reason reason, String reasonName, Fault inside) {
        this.which = which;
        this.at = at;
        this.reason = reason;
        this.reasonName = reasonName;
        this.inside = inside;
    }

    /**
     * Says of {@link Pkder#same(Kind, byte[], byte[])} which document the fault is in.
     *
     * @return 1 or 2; of all other calls 0
     */
    public int which() {
        return which;
    }

    /**
     * Answers the place of the fault.
     *
     * @return the place, in octets from the document's start
     */
    public long at() {
        return at;
    }

    /**
     * Answers the reason.
     *
     * @return the reason; {@link Reason#UNKNOWN} where a later library has one more
     */
    public Reason reason() {
        return reason;
    }

    /**
     * Answers the name of the reason, as the program prints it.
     *
     * @return the name, as "Truncated"
     */
    public String reasonName() {
        return reasonName;
    }

    /**
     * Answers the fault of what is inside privateKey, where the reason is {@link Reason#INNER}.
     *
     * @return that fault, its place counted from the first octet inside, or nothing
     */
    public Optional<Fault> inside() {
        return Optional.ofNullable(inside);
    }

    @Override
    public boolean equals(Object other) {
        return other instanceof Fault && which == ((Fault) other).which && at == ((Fault) other).at
            && reasonName.equals(((Fault) other).reasonName) && Objects.equals(inside, ((Fault) other).inside);
    }

    @Override
    public int hashCode() {
        return Objects.hash(which, at, reasonName, inside);
    }

    /** The line that the program prints; where {@link #which} isn't 0, after "first: " or "second: ". */
    @Override
    public String toString() {
        String document = which == 1 ? "first: " : which == 2 ? "second: " : "";
        return document + "fault " + place() + (inside == null ? "" : " inside " + inside.place());
    }

    private String place() {
        return "at " + at + ": " + reasonName;
    }
}
