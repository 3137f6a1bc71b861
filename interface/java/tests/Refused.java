import java.util.LinkedHashMap;
import java.util.Map;
import pkder.FaultException;
import pkder.Kind;
import pkder.Part;
import pkder.Pkder;

/** What calls throw where there is no memory outside Java's heap for a document's copy: refusing.c refuses its size. */
public final class Refused {
    private static final byte[] DOCUMENT = new byte[234567];

    private Refused() {}

    /**
     * Runs the tests.
     *
     * @param words none
     */
    public static void main(String[] words) {
        Map<String, Claims.Attempt> tests = new LinkedHashMap<>();
        tests.put("one octet more", Refused::longer);
        put(tests, "check", () -> Pkder.check(Kind.KEY, DOCUMENT));
        put(tests, "requireDer", () -> Pkder.requireDer(Kind.KEY, DOCUMENT));
        put(tests, "same, the first", () -> Pkder.same(Kind.KEY, DOCUMENT, Documents.key()));
        put(tests, "same, the second", () -> Pkder.same(Kind.KEY, Documents.key(), DOCUMENT));
        put(tests, "normalise", () -> Pkder.normalise(Kind.KEY, DOCUMENT));
        put(tests, "show", () -> Pkder.show(Kind.KEY, DOCUMENT));
        put(tests, "signed", () -> Pkder.signed(Part.INFO, DOCUMENT));
        put(tests, "explain", () -> Pkder.explain(Kind.KEY, DOCUMENT));
        put(tests, "field", () -> Pkder.field(Kind.KEY, DOCUMENT));
        put(tests, "asks", () -> Pkder.asks(DOCUMENT));
        put(tests, "holds", () -> Pkder.holds(Kind.KEY, DOCUMENT));
        System.exit(Tests.failed(tests) == 0 ? 0 : 1);
    }

    private static void put(Map<String, Claims.Attempt> tests, String name, Claims.Attempt call) {
        tests.put(name, () -> {
            String line = Claims.thrown(OutOfMemoryError.class, call, "want of memory").getMessage();
            Claims.equal(line, "libpkder ran out of memory", "want of memory");
        });
    }

    private static void longer() {
        byte[] zeros = new byte[DOCUMENT.length + 1];
        Claims.thrown(FaultException.class, () -> Pkder.same(Kind.KEY, zeros, zeros), "one octet more");
    }
}
