package pkder;

import java.util.Optional;
import java.util.OptionalLong;

/**
 * A report of a document, refused or not: its text, and what {@link Pkder#check(Kind, byte[])} says of it. It is no
 * truth value, since refused documents have reports, too: ask {@link #isDer}.
 */
public final class Report {
    private final String text;
    private final Verdict verdict;
    private final Fault fault;

    private Report(String text, Verdict verdict, Fault fault) {
        this.text = text;
        this.verdict = verdict;
        this.fault = fault;
    }

    static Report of(String text, Verdict verdict) {
        return new Report(text, verdict, null);
    }

    static Report of(String text, Fault fault) {
        return new Report(text, null, fault);
    }

    /**
     * Answers the text, in which there are no octets of private keys and no values of attributes, but the known
     * extensions that an accepted request asks for.
     *
     * @return the text, each line of which ends in a line feed
     */
    public String text() {
        return text;
    }

    /**
     * Says whether the document is in DER.
     *
     * @return whether it is; of a refused one it isn't
     */
    public boolean isDer() {
        return verdict != null && verdict.isDer();
    }

    /**
     * Answers the first place where a sound document differs from its DER encoding.
     *
     * @return the place, or nothing where the document is in DER or refused
     */
    public OptionalLong differsAt() {
        return verdict == null ? OptionalLong.empty() : verdict.differsAt();
    }

    /**
     * Answers why the document is refused.
     *
     * @return the fault, or nothing where the document is sound
     */
    public Optional<Fault> fault() {
        return Optional.ofNullable(fault);
    }
}
