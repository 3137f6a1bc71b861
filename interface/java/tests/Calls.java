import java.io.ByteArrayInputStream;
import java.io.ByteArrayOutputStream;
import java.io.ObjectInputStream;
import java.io.ObjectOutputStream;
import java.util.ArrayList;
import java.util.Arrays;
import java.util.List;
import java.util.Optional;
import java.util.OptionalLong;
import pkder.Fault;
import pkder.FaultException;
import pkder.Kind;
import pkder.Limits;
import pkder.NotDerException;
import pkder.Part;
import pkder.Pkder;
import pkder.PkderException;
import pkder.Reason;
import pkder.Report;
import pkder.ReportForm;
import pkder.Verdict;

/** What calls answer and throw, beside the rows. */
final class Calls {
    private static final byte[] NONE = {};

    private Calls() {}

    /** Lines that look at no more than a call's name refuse a document in BER. */
    static void careless() throws Exception {
        Pkder.requireDer(Kind.KEY, Documents.key());
        NotDerException why =
            Claims.thrown(NotDerException.class, () -> Pkder.requireDer(Kind.KEY, Documents.keyInBer()), "BER");
        Claims.equal(why.at() + " " + why.getMessage(), "1 not DER at 1", "BER");
        Claims.holds(PkderException.class.isInstance(why), "what requireDer throws");
        String line = "pkder.Pkder.check(pkder.Kind.KEY, key).isDer()";
        Claims.equal(Compiled.says("if (" + line + ") { }"), "", "a verdict that is looked at");
        Claims.holds(Compiled.says("if (pkder.Pkder.check(pkder.Kind.KEY, key)) { }").contains("boolean"), "a verdict");
        Claims.holds(
            Compiled.says("if (pkder.Pkder.explain(pkder.Kind.KEY, key)) { }").contains("boolean"), "a report");
        Claims.holds(Compiled.says("if (pkder.Pkder.asks(key).isCa()) { }").contains("boolean"), "whether it is a CA");
    }

    /** A line that looks at a truth value alone takes no two refused documents for the same. */
    static void carelessOfTwo() throws Exception {
        Claims.equal(
            Compiled.says("if (pkder.Pkder.same(pkder.Kind.KEY, key, key)) { }"), "", "whether two are the same");
        Claims.thrown(FaultException.class, () -> {
            if (Pkder.same(Kind.KEY, Documents.cutKey(), Documents.cutKey())) {
                throw new AssertionError("two refused documents are the same");
            }
        }, "two refused documents");
    }

    static void verdicts() throws Exception {
        Verdict der = Pkder.check(Kind.KEY, Documents.key());
        Verdict ber = Pkder.check(Kind.KEY, Documents.keyInBer());
        Claims.equal(der.isDer() + " " + der.differsAt() + " " + der, "true OptionalLong.empty DER", "DER");
        Claims.equal(ber.isDer() + " " + ber.differsAt() + " " + ber, "false OptionalLong[1] not DER at 1", "BER");
        Claims.holds(der.equals(Pkder.check(Kind.KEY, Documents.key())) && !der.equals(ber), "verdicts are compared");
        Claims.equal(ber.hashCode(), Pkder.check(Kind.KEY, Documents.keyInBer()).hashCode(), "hashes");
    }

    static void faults() throws Exception {
        FaultException why =
            Claims.thrown(FaultException.class, () -> Pkder.normalise(Kind.KEY, Documents.cutKey()), "a cut key");
        Claims.equal(why.getMessage(), "fault at 20: Truncated", "message");
        Claims.equal(why.at() + " " + why.reason() + " " + why.inside(), "20 TRUNCATED Optional.empty", "fault");
        Claims.equal(why.fault().reasonName(), "Truncated", "name");
        for (Kind kind : Kind.values()) {
            FaultException none = Claims.thrown(FaultException.class, () -> Pkder.show(kind, NONE), "no octets");
            Claims.equal(none.getMessage(), "fault at 0: Truncated", "no octets");
        }
        FaultException same = copied(why);
        Claims.equal(same.fault(), why.fault(), "a fault that was written and read");
        Claims.equal(same.getMessage(), why.getMessage(), "an exception that was written and read");
    }

    /** The first document that is refused is told; of calls that take one document none is. */
    static void which() throws Exception {
        byte[] key = Documents.keyInBer();
        byte[] cut = Documents.cutKey();
        byte[] longer = keyThatIsLongerInside();
        String line = Pkder.explain(Kind.KEY, longer).fault().orElseThrow().toString();
        Claims.equal(refusal(key, longer), List.of(2, "second: " + line, 2), "inside the second");
        Claims.equal(refusal(longer, cut), List.of(1, "first: " + line, 1), "inside the first");
        Claims.equal(refusal(cut, key), List.of(1, "first: fault at 20: Truncated"), "the first");
        Claims.equal(refusal(key, cut), List.of(2, "second: fault at 20: Truncated"), "the second");
        Claims.equal(refusal(cut, cut), List.of(1, "first: fault at 20: Truncated"), "both");
        FaultException one = Claims.thrown(FaultException.class, () -> Pkder.check(Kind.KEY, cut), "a cut key");
        Claims.equal(one.which() + " " + one.getMessage(), "0 fault at 20: Truncated", "a call on one document");
        FaultException of = Claims.thrown(FaultException.class, () -> Pkder.same(Kind.KEY, key, cut), "a cut key");
        Claims.holds(!of.fault().equals(one.fault()), "faults of other documents");
        Claims.equal(copied(of).fault(), of.fault(), "a fault that was written and read");
    }

    /** What is thrown of these two: which is refused, the line, and which it is of the fault inside, if it is there. */
    private static List<Object> refusal(byte[] first, byte[] second) {
        FaultException why =
            Claims.thrown(FaultException.class, () -> Pkder.same(Kind.KEY, first, second), "a refused document");
        Claims.equal(why.fault().which(), why.which(), "which document");
        List<Object> found = new ArrayList<>(List.of(why.which(), why.getMessage()));
        why.inside().map(Fault::which).ifPresent(found::add);
        return found;
    }

    private static FaultException copied(FaultException why) throws Exception {
        ByteArrayOutputStream written = new ByteArrayOutputStream();
        try (ObjectOutputStream to = new ObjectOutputStream(written)) {
            to.writeObject(why);
        }
        try (ObjectInputStream from = new ObjectInputStream(new ByteArrayInputStream(written.toByteArray()))) {
            return (FaultException) from.readObject();
        }
    }

    /** A key whose privateKey is longer than its octets (RFC 8410 section 7: an OCTET STRING inside). */
    private static byte[] keyThatIsLongerInside() {
        byte[] key = Documents.key();
        // (the OCTET STRING inside has a length of 33, and 32 octets)
        key[15] = 0x21;
        return key;
    }

    static void faultsInside() throws Exception {
        Fault fault = Pkder.explain(Kind.KEY, keyThatIsLongerInside()).fault().orElseThrow();
        Claims.equal(fault.reason(), Reason.INNER, "reason");
        Fault inside = fault.inside().orElseThrow();
        Claims.equal(fault.toString(),
            "fault at " + fault.at() + ": Inner inside at " + inside.at() + ": " + inside.reasonName(), "line");
        Claims.equal(inside.reason() + " " + inside.inside(), "TRUNCATED Optional.empty", "inside");
    }

    static void reports() {
        Report sound = Pkder.explain(Kind.KEY, Documents.key());
        Claims.equal(sound.isDer() + " " + sound.differsAt() + " " + sound.fault(),
            "true OptionalLong.empty Optional.empty", "a sound key");
        Claims.holds(sound.text().startsWith("key, 48 octets\nDER\n"), sound.text());
        for (ReportForm form : ReportForm.values()) {
            Report ber = Pkder.explain(Kind.KEY, Documents.keyInBer(), form, Limits.USUAL);
            Claims.equal(ber.isDer() + " " + ber.differsAt() + " " + ber.fault(),
                "false OptionalLong[1] Optional.empty", "a key in BER");
            // (with all elements it lists privateKey too, at 13)
            boolean isJson = form.name().contains("JSON"), isWhole = form.name().contains("ALL") && !isJson;
            Claims.equal(ber.text().contains("\n13 "), isWhole, "privateKey, " + form);
            Claims.equal(ber.text().startsWith("{"), isJson, "JSON, " + form);
            Report cut = Pkder.explain(Kind.KEY, Documents.cutKey(), form, Limits.USUAL);
            Claims.equal(cut.isDer() + " " + cut.differsAt(), "false OptionalLong.empty", "a cut key");
            Claims.equal(cut.fault().map(Fault::toString), Optional.of("fault at 20: Truncated"), "a cut key");
        }
    }

    /** The field that a report is about. */
    static void fields() {
        Claims.equal(Pkder.field(Kind.KEY, Documents.key()), "", "a sound key");
        Claims.equal(Pkder.field(Kind.KEY, Documents.keyInBer()), "OneAsymmetricKey", "a key in BER");
        Claims.equal(Pkder.field(Kind.KEY, Documents.cutKey()), "privateKey", "a cut key");
        // (with 47 octets at most it is too long from its first octet on)
        Claims.equal(Pkder.field(Kind.KEY, Documents.key(), new Limits(32, 47)), "OneAsymmetricKey", "47 octets");
    }

    /** A report of all elements that is longer than the room that it gets at first. */
    static void longReport() {
        byte[] request = Documents.cutRequest();
        Report report = Pkder.explain(Kind.REQUEST, request, ReportForm.ALL_JSON, Limits.USUAL);
        Claims.holds(report.text().length() > 16384, report.text().length() + " characters");
        Claims.holds(report.text().endsWith("}\n"), "the report's end");
        Claims.equal(report.fault().orElseThrow().at(), (long) request.length, "its fault");
    }

    static void limits() {
        for (int[] wrong : new int[][] {{0, 9}, {65, 9}, {-1, 9}, {1, 0}, {1, -1}}) {
            Claims.thrown(IllegalArgumentException.class, () -> new Limits(wrong[0], wrong[1]), Arrays.toString(wrong));
        }
        Limits few = new Limits(32, 47);
        FaultException why =
            Claims.thrown(FaultException.class, () -> Pkder.check(Kind.KEY, Documents.key(), few), "47 octets");
        Claims.equal(why.reason(), Reason.TOO_LONG, "47 octets");
        FaultException of = Claims.thrown(
            FaultException.class, () -> Pkder.same(Kind.KEY, Documents.key(), Documents.key(), few), "47 octets");
        Claims.equal(of.which() + " " + of.reason(), "1 TOO_LONG", "47 octets of two");
        Claims.equal(new Limits(32, 1048576), Limits.USUAL, "usual limits");
        Claims.holds(!few.equals(Limits.USUAL) && few.hashCode() != Limits.USUAL.hashCode(), "other limits");
    }

    static void nulls() {
        Class<NullPointerException> due = NullPointerException.class;
        Claims.thrown(due, () -> Pkder.check(null, NONE), "no kind");
        Claims.thrown(due, () -> Pkder.check(Kind.KEY, null), "no document");
        Claims.thrown(due, () -> Pkder.requireDer(Kind.KEY, null), "no document");
        Claims.thrown(due, () -> Pkder.same(null, NONE, NONE), "no kind");
        Claims.thrown(due, () -> Pkder.same(Kind.KEY, null, NONE), "no document");
        Claims.thrown(due, () -> Pkder.same(Kind.KEY, NONE, null), "no second document");
        Claims.thrown(due, () -> Pkder.same(Kind.KEY, NONE, NONE, null), "no limits");
        Claims.thrown(due, () -> Pkder.normalise(Kind.KEY, null), "no document");
        Claims.thrown(due, () -> Pkder.signed(Part.INFO, null), "no document");
        Claims.thrown(due, () -> Pkder.signed(null, NONE), "no part");
        Claims.thrown(due, () -> Pkder.show(Kind.KEY, null), "no document");
        Claims.thrown(due, () -> Pkder.explain(Kind.KEY, null), "no document");
        Claims.thrown(due, () -> Pkder.field(Kind.KEY, null), "no document");
        Claims.thrown(due, () -> Pkder.field(null, NONE), "no kind");
        Claims.thrown(due, () -> Pkder.asks(null), "no request");
        Claims.thrown(due, () -> Pkder.asks(NONE, null), "no limits");
        Claims.thrown(due, () -> Pkder.holds(Kind.KEY, null), "no document");
        Claims.thrown(due, () -> Pkder.holds(null, NONE), "no kind");
        Claims.thrown(due, () -> Pkder.check(Kind.KEY, NONE, null), "no limits");
    }

    /** What is handed over stays as it is, and what is handed back is the caller's. */
    static void arrays() throws Exception {
        byte[] key = Documents.keyInBer();
        byte[] text = Pkder.normalise(Kind.KEY, key);
        Claims.holds(Arrays.equals(key, Documents.keyInBer()), "the document");
        Claims.holds(Arrays.equals(text, Documents.key()), "its DER encoding");
        Claims.holds(Pkder.same(Kind.KEY, key, text) && Pkder.same(Kind.KEY, key, key), "both, and one twice");
        Claims.holds(Arrays.equals(key, Documents.keyInBer()), "the document that was compared");
        Claims.holds(Arrays.equals(text, Documents.key()), "the other one");
        Arrays.fill(text, (byte) 0);
        Claims.holds(Arrays.equals(Pkder.normalise(Kind.KEY, key), Documents.key()), "its DER encoding again");
        Claims.equal(Pkder.check(Kind.KEY, key).differsAt(), OptionalLong.of(1), "its place");
    }
}
