package pkder;

import java.nio.charset.StandardCharsets;
import java.util.Objects;

/**
 * Reads, checks and normalises private keys, public keys and certification requests (CSRs) in BER and DER, by libpkder,
 * which is proved. {@link #requireDer(Kind, byte[])} refuses whatever isn't in DER; all other calls take BER, too.
 *
 * <p>Each call takes the bytes (octets) of one whole document, and {@link #same(Kind, byte[], byte[]) same} of two; and
 * not PEM. It judges them as they are when it begins, so whoever hands an array on has to keep others from writing to
 * it. It may come from any thread. It wipes the copies that it makes of what it is given, and keeps nothing; a text
 * that is a private key is the caller's to wipe.
 *
 * <p>Each throws {@link NullPointerException} where an argument is null, {@link OutOfMemoryError} where memory ran out,
 * {@link StackOverflowError} where the thread has too little stack left for the depth that is allowed, and
 * {@link IllegalStateException} where a later library answers what this package doesn't know. None of these says
 * anything of the document.
 */
public final class Pkder {
    private Pkder() {}

    /** A native call on a document. */
    private interface Call {
        byte[] on(byte[] document, long[] outcome);
    }

    /**
     * Returns where the document is in DER, and throws otherwise.
     *
     * @param kind what the document is
     * @param document its octets
     * @throws FaultException where the document is refused
     * @throws NotDerException where it is sound and isn't in DER
     */
    public static void requireDer(Kind kind, byte[] document) throws FaultException, NotDerException {
        requireDer(kind, document, Limits.USUAL);
    }

    /**
     * Returns where the document is in DER, and throws otherwise.
     *
     * @param kind what the document is
     * @param document its octets
     * @param limits the limits of what is read
     * @throws FaultException where the document is refused
     * @throws NotDerException where it is sound and isn't in DER
     */
    public static void requireDer(Kind kind, byte[] document, Limits limits) throws FaultException, NotDerException {
        Verdict verdict = check(kind, document, limits);
        if (!verdict.isDer()) {
            throw new NotDerException(verdict);
        }
    }

    /**
     * Says whether the document is in DER, and else the first place where it differs from its DER encoding. A line that
     * doesn't look at the verdict takes BER: {@link #requireDer(Kind, byte[])} doesn't.
     *
     * @param kind what the document is
     * @param document its octets
     * @return the verdict
     * @throws FaultException where the document is refused
     */
    public static Verdict check(Kind kind, byte[] document) throws FaultException {
        return check(kind, document, Limits.USUAL);
    }

    /**
     * Says whether the document is in DER, and else the first place where it differs from its DER encoding.
     *
     * @param kind what the document is
     * @param document its octets
     * @param limits the limits of what is read
     * @return the verdict
     * @throws FaultException where the document is refused
     */
    public static Verdict check(Kind kind, byte[] document, Limits limits) throws FaultException {
        int number = kind.number();
        Outcome outcome = new Outcome();
        Native.check(number, limits.depth(), limits.octets(), present(document), outcome.numbers);
        if (outcome.status() != Outcome.ACCEPTED && outcome.status() != Outcome.NOT_DER) {
            throw outcome.refusal();
        }
        return outcome.verdict();
    }

    /**
     * Says whether two documents are the same: whether they say the same, however they are laid out, which is whether
     * their DER encodings are equal. What is refused is the same as nothing, itself included.
     *
     * @param kind what both documents are
     * @param first the octets of one
     * @param second the octets of the other
     * @return whether they are the same
     * @throws FaultException where one of them is refused; {@link FaultException#which} says which one
     */
    public static boolean same(Kind kind, byte[] first, byte[] second) throws FaultException {
        return same(kind, first, second, Limits.USUAL);
    }

    /**
     * Says whether two documents are the same: whether they say the same, however they are laid out, which is whether
     * their DER encodings are equal. What is refused is the same as nothing, itself included.
     *
     * @param kind what both documents are
     * @param first the octets of one
     * @param second the octets of the other
     * @param limits the limits of what is read, of each document
     * @return whether they are the same
     * @throws FaultException where one of them is refused; {@link FaultException#which} says which one
     */
    public static boolean same(Kind kind, byte[] first, byte[] second, Limits limits) throws FaultException {
        Objects.requireNonNull(first, "first");
        Objects.requireNonNull(second, "second");
        Outcome outcome = new Outcome();
        Native.same(kind.number(), limits.depth(), limits.octets(), first, second, outcome.numbers);
        if (outcome.status() != Outcome.ACCEPTED && outcome.status() != Outcome.ANOTHER) {
            throw outcome.refusal();
        }
        return outcome.status() == Outcome.ACCEPTED;
    }

    /**
     * Answers the document's DER encoding: two documents say the same exactly where these are equal.
     *
     * @param kind what the document is
     * @param document its octets
     * @return the encoding, in an array of its own
     * @throws FaultException where the document is refused
     */
    public static byte[] normalise(Kind kind, byte[] document) throws FaultException {
        return normalise(kind, document, Limits.USUAL);
    }

    /**
     * Answers the document's DER encoding: two documents say the same exactly where these are equal.
     *
     * @param kind what the document is
     * @param document its octets
     * @param limits the limits of what is read
     * @return the encoding, in an array of its own
     * @throws FaultException where the document is refused
     */
    public static byte[] normalise(Kind kind, byte[] document, Limits limits) throws FaultException {
        int number = kind.number();
        return written(
            document, (octets, outcome) -> Native.normalise(number, limits.depth(), limits.octets(), octets, outcome));
    }

    /**
     * Answers a part of a certification request.
     *
     * @param part which part
     * @param request the request's octets
     * @return the part's octets, as DER has them, in an array of its own
     * @throws FaultException where the request is refused
     */
    public static byte[] signed(Part part, byte[] request) throws FaultException {
        return signed(part, request, Limits.USUAL);
    }

    /**
     * Answers a part of a certification request.
     *
     * @param part which part
     * @param request the request's octets
     * @param limits the limits of what is read
     * @return the part's octets, as DER has them, in an array of its own
     * @throws FaultException where the request is refused
     */
    public static byte[] signed(Part part, byte[] request, Limits limits) throws FaultException {
        int number = part.number();
        return written(
            request, (octets, outcome) -> Native.signed(number, limits.depth(), limits.octets(), octets, outcome));
    }

    /**
     * Answers what the document says, a line for each part; of private keys the number of octets alone, of a request
     * all attributes, a challengePassword among them.
     *
     * @param kind what the document is
     * @param document its octets
     * @return the lines, each of which ends in a line feed
     * @throws FaultException where the document is refused
     */
    public static String show(Kind kind, byte[] document) throws FaultException {
        return show(kind, document, Limits.USUAL);
    }

    /**
     * Answers what the document says, a line for each part; of private keys the number of octets alone, of a request
     * all attributes, a challengePassword among them.
     *
     * @param kind what the document is
     * @param document its octets
     * @param limits the limits of what is read
     * @return the lines, each of which ends in a line feed
     * @throws FaultException where the document is refused
     */
    public static String show(Kind kind, byte[] document, Limits limits) throws FaultException {
        int number = kind.number();
        byte[] lines = written(
            document, (octets, outcome) -> Native.show(number, limits.depth(), limits.octets(), octets, outcome));
        return new String(lines, StandardCharsets.US_ASCII);
    }

    /**
     * Answers a report of the octets for people, whether they are a document or not: the elements with their places,
     * and of a refused document which field is at fault, what is due there, the usual cause and what to do. No octets
     * of private keys and no values of attributes are in it, but the known extensions that an accepted request asks
     * for.
     *
     * @param kind what the document is
     * @param document its octets
     * @return the report, as text with the elements that matter
     */
    public static Report explain(Kind kind, byte[] document) {
        return explain(kind, document, ReportForm.TEXT, Limits.USUAL);
    }

    /**
     * Answers a report of the octets for people, whether they are a document or not.
     *
     * @param kind what the document is
     * @param document its octets
     * @param form how the report is written
     * @param limits the limits of what is read
     * @return the report
     */
    public static Report explain(Kind kind, byte[] document, ReportForm form, Limits limits) {
        int number = kind.number();
        Outcome outcome = new Outcome();
        byte[] octets =
            Native.explain(number, limits.depth(), limits.octets(), form.number(), present(document), outcome.numbers);
        if (outcome.status() != Outcome.REPORTED) {
            throw outcome.failure();
        }
        String text = new String(octets, StandardCharsets.UTF_8);
        return outcome.hasFault() ? Report.of(text, outcome.fault()) : Report.of(text, outcome.verdict());
    }

    /**
     * Answers the path of the field that the report is about, as {@code privateKey.publicExponent}: of a refused
     * document the field that is refused, or the name of the outermost type; of one in BER the first field that isn't
     * in DER. It reads the document again, as {@link #explain(Kind, byte[])} does.
     *
     * @param kind what the document is
     * @param document its octets
     * @return the path, which is empty where the document is in DER
     */
    public static String field(Kind kind, byte[] document) {
        return field(kind, document, Limits.USUAL);
    }

    /**
     * Answers the path of the field that the report is about.
     *
     * @param kind what the document is
     * @param document its octets
     * @param limits the limits of what is read
     * @return the path, which is empty where the document is in DER
     */
    public static String field(Kind kind, byte[] document, Limits limits) {
        int number = kind.number();
        Outcome outcome = new Outcome();
        byte[] path = Native.field(number, limits.depth(), limits.octets(), present(document), outcome.numbers);
        if (outcome.status() != Outcome.REPORTED) {
            throw outcome.failure();
        }
        return new String(path, StandardCharsets.UTF_8);
    }

    /**
     * Answers what a certification request asks for, by the report that {@link #explain(Kind, byte[])} makes of it.
     *
     * @param request the request's octets, in DER or in BER
     * @return what it asks for
     * @throws FaultException where the request is refused
     */
    public static Asks asks(byte[] request) throws FaultException {
        return asks(request, Limits.USUAL);
    }

    /**
     * Answers what a certification request asks for.
     *
     * @param request the request's octets, in DER or in BER
     * @param limits the limits of what is read
     * @return what it asks for
     * @throws FaultException where the request is refused
     */
    public static Asks asks(byte[] request, Limits limits) throws FaultException {
        return Told.asks(told(Kind.REQUEST, request, limits));
    }

    /**
     * Answers what a document of another kind holds, by the report that {@link #explain(Kind, byte[])} makes of it.
     *
     * @param kind what the document is: {@link Kind#KEY}, {@link Kind#EC}, {@link Kind#PUBLIC} or {@link
     *     Kind#ENCRYPTED}
     * @param document its octets, in DER or in BER
     * @return what it holds
     * @throws FaultException where the document is refused
     * @throws IllegalArgumentException of another kind
     */
    public static Holds holds(Kind kind, byte[] document) throws FaultException {
        return holds(kind, document, Limits.USUAL);
    }

    /**
     * Answers what a document of another kind holds.
     *
     * @param kind what the document is: {@link Kind#KEY}, {@link Kind#EC}, {@link Kind#PUBLIC} or {@link
     *     Kind#ENCRYPTED}
     * @param document its octets, in DER or in BER
     * @param limits the limits of what is read
     * @return what it holds
     * @throws FaultException where the document is refused
     * @throws IllegalArgumentException of another kind
     */
    public static Holds holds(Kind kind, byte[] document, Limits limits) throws FaultException {
        if (kind == Kind.REQUEST || kind == Kind.PACKAGE) {
            throw new IllegalArgumentException("nothing is told of what a document of kind " + kind + " holds");
        }
        return Told.holds(told(kind, document, limits));
    }

    /** The report of a sound document, in JSON. */
    private static String told(Kind kind, byte[] document, Limits limits) throws FaultException {
        Report report = explain(kind, document, ReportForm.JSON, limits);
        if (report.fault().isPresent()) {
            throw new FaultException(report.fault().get());
        }
        return report.text();
    }

    private static byte[] written(byte[] document, Call call) throws FaultException {
        Outcome outcome = new Outcome();
        byte[] text = call.on(present(document), outcome.numbers);
        if (outcome.status() != Outcome.ACCEPTED) {
            throw outcome.refusal();
        }
        return text;
    }

    private static byte[] present(byte[] document) {
        return Objects.requireNonNull(document, "document");
    }
}
