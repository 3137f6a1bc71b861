import java.util.LinkedHashMap;
import java.util.Map;
import java.util.Set;

/**
 * The tests of the package, over the rows that PKDER_CALLS names, the pairs of documents that PKDER_PAIRS names and the
 * header that PKDER_HEADER names. The last line is "N tests"; the status is 1 where one failed.
 */
public final class Tests {
    private Tests() {}

    private static Map<String, Claims.Attempt> all() {
        Map<String, Claims.Attempt> tests = new LinkedHashMap<>();
        tests.put("numbers of the header", Header::numbers);
        tests.put("names of reasons", Header::names);
        tests.put("rows", Rows::all);
        tests.put("pairs", Pairs::all);
        tests.put("careless lines", Calls::careless);
        tests.put("careless lines of two", Calls::carelessOfTwo);
        tests.put("verdicts", Calls::verdicts);
        tests.put("faults", Calls::faults);
        tests.put("faults inside", Calls::faultsInside);
        tests.put("which document is refused", Calls::which);
        tests.put("reports", Calls::reports);
        tests.put("fields", Calls::fields);
        tests.put("a long report", Calls::longReport);
        tests.put("what requests ask for", Asked::requests);
        tests.put("keys of requests", Asked::keys);
        tests.put("extensions of requests", Asked::extensions);
        tests.put("a request for a CA", Asked::authority);
        tests.put("refused requests", Asked::refusedRequests);
        tests.put("what documents hold", Asked::held);
        tests.put("keys of RSA", Asked::keysOfRsa);
        tests.put("refused documents", Asked::refusedDocuments);
        tests.put("JSON", Told::json);
        tests.put("reports that ask", Told::asked);
        tests.put("reports that don't tell", Told::untold);
        tests.put("reports of another library", Told::otherReports);
        tests.put("limits", Calls::limits);
        tests.put("nulls", Calls::nulls);
        tests.put("arrays", Calls::arrays);
        tests.put("threads", Threads::atOnce);
        tests.put("stacks", Threads::stacks);
        tests.put("class loaders", Threads::loaders);
        tests.put("memory", Threads::memory);
        return tests;
    }

    /**
     * Runs the tests.
     *
     * @param words the names of some; none stands for all
     */
    public static void main(String[] words) {
        Map<String, Claims.Attempt> tests = all();
        if (words.length > 0) {
            tests.keySet().retainAll(Set.of(words));
        }
        System.exit(failed(tests) == 0 && !tests.isEmpty() ? 0 : 1);
    }

    /** Runs these tests, and answers how many failed. */
    static int failed(Map<String, Claims.Attempt> tests) {
        int failed = 0;
        for (Map.Entry<String, Claims.Attempt> test : tests.entrySet()) {
            try {
                test.getValue().run();
            } catch (Exception | Error why) {
                failed++;
                System.out.println(test.getKey() + ": " + why);
                why.printStackTrace(System.out);
            }
        }
        System.out.println(tests.size() + " tests");
        return failed;
    }
}
