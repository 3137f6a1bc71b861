package pkder;

/** A document is sound, and not in DER. */
public final class NotDerException extends PkderException {
    private static final long serialVersionUID = 1;

    private final long at;

    NotDerException(Verdict verdict) {
        super(verdict.toString());
        this.at = verdict.differsAt().getAsLong();
    }

    @Override
    public long at() {
        return at;
    }
}
