package pkder;

import java.util.Optional;

/** A document has a fault; of {@link Pkder#same(Kind, byte[], byte[])} the first one that has. */
public final class FaultException extends PkderException {
    private static final long serialVersionUID = 1;

    private final Fault fault;

    FaultException(Fault fault) {
        super(fault.toString());
        this.fault = fault;
    }

    /**
     * Answers the fault.
     *
     * @return the fault
     */
    public Fault fault() {
        return fault;
    }

    /**
     * Says of {@link Pkder#same(Kind, byte[], byte[])} which document the fault is in.
     *
     * @return 1 or 2; of all other calls 0
     */
    public int which() {
        return fault.which();
    }

    @Override
    public long at() {
        return fault.at();
    }

    /**
     * Answers the reason of the fault.
     *
     * @return the reason
     */
    public Reason reason() {
        return fault.reason();
    }

    /**
     * Answers the fault of what is inside privateKey, where the reason is {@link Reason#INNER}.
     *
     * @return its place and reason, or nothing
     */
    public Optional<Fault> inside() {
        return fault.inside();
    }
}
