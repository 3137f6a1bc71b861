package pkder;

/**
 * A document is refused: it has a fault ({@link FaultException}), or, of {@link Pkder#requireDer(Kind, byte[])} alone,
 * it is sound and isn't in DER ({@link NotDerException}). The message is the line that the program prints, of
 * {@link Pkder#same(Kind, byte[], byte[])} after "first: " or "second: "; no octets of a document are in it.
 */
public abstract class PkderException extends Exception {
    private static final long serialVersionUID = 1;

    PkderException(String line) {
        super(line);
    }

    /**
     * Answers the place of the fault, or the first one where the document differs from its DER encoding.
     *
     * @return the place, in octets from the document's start
     */
    public abstract long at();
}
