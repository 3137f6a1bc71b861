import java.util.ArrayList;
import java.util.LinkedHashMap;
import java.util.List;
import java.util.Map;
import pkder.FaultException;
import pkder.Kind;
import pkder.Part;
import pkder.Pkder;
import pkder.Reason;
import pkder.Report;

/**
 * What the package makes of answers that no document brings, over a jar with the stand-in of interface/c/stand_in.c.
 */
public final class StandIn {
    private StandIn() {}

    /**
     * Runs the tests.
     *
     * @param words none
     */
    public static void main(String[] words) {
        Map<String, Claims.Attempt> tests = new LinkedHashMap<>();
        tests.put("errors", StandIn::errors);
        tests.put("faults of a later library", StandIn::faults);
        tests.put("reports of a later library", StandIn::reports);
        tests.put("statuses of other calls", StandIn::statuses);
        tests.put("two documents", StandIn::two);
        System.exit(Tests.failed(tests) == 0 ? 0 : 1);
    }

    /** The calls on one document, of three octets, that refuse some. */
    private static List<Claims.Attempt> calls(int... told) {
        byte[] document = document(told);
        List<Claims.Attempt> calls = new ArrayList<>();
        calls.add(() -> Pkder.check(Kind.KEY, document));
        calls.add(() -> Pkder.requireDer(Kind.KEY, document));
        calls.add(() -> Pkder.normalise(Kind.KEY, document));
        calls.add(() -> Pkder.show(Kind.KEY, document));
        calls.add(() -> Pkder.signed(Part.INFO, document));
        return calls;
    }

    private static byte[] document(int... told) {
        return new byte[] {(byte) told[0], (byte) told[1], (byte) told[2]};
    }

    private static boolean same(int... told) throws FaultException {
        return Pkder.same(Kind.KEY, document(told), document(told));
    }

    /** Those that tell of any octets. */
    private static List<Claims.Attempt> reporting(int... told) {
        byte[] document = document(told);
        List<Claims.Attempt> calls = new ArrayList<>();
        calls.add(() -> Pkder.explain(Kind.KEY, document));
        calls.add(() -> Pkder.field(Kind.KEY, document));
        calls.add(() -> Pkder.asks(document));
        calls.add(() -> Pkder.holds(Kind.KEY, document));
        return calls;
    }

    private static List<Claims.Attempt> allCalls(int... told) {
        List<Claims.Attempt> calls = calls(told);
        calls.addAll(reporting(told));
        calls.add(() -> same(told));
        return calls;
    }

    private static void errors() {
        for (Claims.Attempt call : allCalls(3, 0, 0)) {
            Claims.thrown(OutOfMemoryError.class, call, "want of memory");
        }
        for (Claims.Attempt call : allCalls(4, 0, 0)) {
            Claims.thrown(IllegalArgumentException.class, call, "a bad call");
        }
        for (Claims.Attempt call : allCalls(9, 0, 0)) {
            String line = Claims.thrown(IllegalStateException.class, call, "a later status").getMessage();
            Claims.equal(line, "libpkder answers the status 9", "a later status");
        }
    }

    private static void faults() {
        for (Claims.Attempt call : calls(1, 28, 28)) {
            FaultException why = Claims.thrown(FaultException.class, call, "a later reason");
            Claims.equal(why.getMessage(), "fault at 5: Later inside at 7: Later", "a later reason");
            Claims.equal(why.reason() + " " + why.fault().reasonName(), "UNKNOWN Later", "a later reason");
        }
        for (Claims.Attempt call : calls(1, 28, 0)) {
            FaultException why = Claims.thrown(FaultException.class, call, "a later reason");
            Claims.equal(why.getMessage(), "fault at 5: Later", "a later reason");
        }
    }

    private static void reports() {
        Report report = Pkder.explain(Kind.KEY, document(6, 28, 28));
        Claims.equal(report.isDer() + " " + report.differsAt() + " " + report.fault().orElseThrow(),
            "false OptionalLong.empty fault at 5: Later inside at 7: Later", "a later reason");
        Claims.equal(Pkder.field(Kind.KEY, document(6, 28, 28)), "", "a later reason");
        for (Claims.Attempt call : reporting(6, 28, 28).subList(2, 4)) {
            FaultException why = Claims.thrown(FaultException.class, call, "a later reason");
            Claims.equal(why.fault(), report.fault().orElseThrow(), "a later reason");
        }
        // (a report without a fault, and without anything else)
        for (Claims.Attempt call : reporting(6, 0, 0).subList(2, 4)) {
            Claims.thrown(IllegalStateException.class, call, "a report of nothing");
        }
    }

    /** Statuses of reports and of two documents are no answer of other calls, nor are theirs one of a report. */
    private static void statuses() {
        for (int status : new int[] {2, 6, 7, 8}) {
            for (Claims.Attempt call : calls(status, 0, 0)) {
                Claims.thrown(IllegalStateException.class, call, "status " + status);
            }
        }
        for (int status : new int[] {0, 1, 2, 5, 7, 8}) {
            for (Claims.Attempt call : reporting(status, 0, 0)) {
                Claims.thrown(IllegalStateException.class, call, "status " + status + " of a report");
            }
        }
        for (Claims.Attempt call : calls(5, 0, 0).subList(2, 5)) {
            Claims.thrown(IllegalStateException.class, call, "status 5 of a text");
        }
    }

    /** (The stand-in's fault of two is in the second.) */
    private static void two() throws FaultException {
        Claims.equal(same(0, 0, 0) + " " + same(8, 0, 0), "true false", "whether two are the same");
        for (int status : new int[] {2, 5, 6, 7}) {
            Claims.thrown(IllegalStateException.class, () -> same(status, 0, 0), "status " + status + " of two");
        }
        FaultException why = Claims.thrown(FaultException.class, () -> same(1, 28, 28), "a later reason");
        Claims.equal(why.which() + " " + why.getMessage(), "2 second: fault at 5: Later inside at 7: Later",
            "a later reason of the second");
        Claims.equal(why.inside().orElseThrow().which(), 2, "inside the second");
    }
}
