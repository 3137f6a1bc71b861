import java.io.IOException;
import java.nio.charset.StandardCharsets;
import java.nio.file.Path;
import java.util.Arrays;
import java.util.List;
import java.util.Locale;
import java.util.Map;
import pkder.FaultException;
import pkder.Kind;
import pkder.Limits;
import pkder.NotDerException;
import pkder.Part;
import pkder.Pkder;
import pkder.Report;
import pkder.ReportForm;
import pkder.Verdict;

/** The rows that PKDER_CALLS names; interface/calls.py makes them. */
final class Rows {
    private static final Map<String, Part> PARTS = Map.of("info", Part.INFO, "algorithm", Part.ALGORITHM, "key",
        Part.SUBJECT_KEY, "signature", Part.SIGNATURE, "received", Part.RECEIVED);

    private final List<String> words;
    private final byte[] document;
    private final Limits limits;

    private Rows(List<String> words, byte[] document) {
        this.words = words;
        this.document = document;
        this.limits = new Limits(Integer.parseInt(words.get(4)), Integer.parseInt(words.get(6)));
    }

    static void all() throws Exception {
        int rows = 0;
        try (Table table = new Table(Path.of(System.getenv("PKDER_CALLS")))) {
            while (!table.isAtEnd()) {
                tryRow(table);
                rows++;
            }
        }
        Claims.holds(rows > 800, rows + " rows");
    }

    private static void tryRow(Table table) throws IOException {
        String rule = table.text();
        Rows row = new Rows(Arrays.asList(table.text().split(" ")), table.octets());
        String status = table.text();
        byte[] output = table.octets();
        String line = table.text();
        Answer said = row.said();
        Claims.equal(said.status + " " + said.line, status + " " + line, rule);
        Claims.holds(Arrays.equals(said.output, output), rule + ": " + said.output.length + " octets");
        if (row.words.get(0).equals("check")) {
            String due = new String(output, StandardCharsets.US_ASCII).strip() + line;
            Claims.equal(row.required(), due, rule + ", required");
            Claims.equal(row.reported(), List.of(due, due), rule + ", reported");
        }
    }

    /** The program's status, output and line. */
    private static final class Answer {
        final int status;
        final byte[] output;
        final String line;

        Answer(int status, byte[] output, String line) {
            this.status = status;
            this.output = output;
            this.line = line;
        }
    }

    private Kind kind() {
        return Kind.valueOf(words.get(2).toUpperCase(Locale.ROOT));
    }

    /** What is answered to the call that the words ask for. */
    private Answer said() {
        try {
            switch (words.get(0)) {
                case "normalise":
                    return new Answer(0, Pkder.normalise(kind(), document, limits), "");
                case "signed":
                    return new Answer(0, Pkder.signed(PARTS.get(words.get(2)), document, limits), "");
                case "show":
                    return answer(0, Pkder.show(kind(), document, limits));
                case "explain":
                    return answer(reportStatus(), Pkder.explain(kind(), document, form(), limits).text());
                case "field":
                    return answer(reportStatus(), Pkder.field(kind(), document, limits));
                default:
                    Verdict verdict = Pkder.check(kind(), document, limits);
                    return answer(verdict.isDer() ? 0 : 1, verdict + "\n");
            }
        } catch (FaultException why) {
            return new Answer(2, new byte[0], why.getMessage());
        }
    }

    private static Answer answer(int status, String output) {
        return new Answer(status, output.getBytes(StandardCharsets.UTF_8), "");
    }

    /** The program's status for a report. */
    private int reportStatus() {
        Report report = Pkder.explain(kind(), document, form(), limits);
        return report.fault().isPresent() ? 2 : report.isDer() ? 0 : 1;
    }

    private ReportForm form() {
        ReportForm form = words.contains("--all") ? ReportForm.ALL : ReportForm.TEXT;
        if (words.contains("--json")) {
            form = words.contains("--all") ? ReportForm.ALL_JSON : ReportForm.JSON;
        }
        if (!words.contains("--profile=tls")) {
            return form;
        }
        return form == ReportForm.TEXT ? ReportForm.TLS : ReportForm.valueOf(form + "_TLS");
    }

    /** The line of what requireDer does that is asked for as check is. */
    private String required() {
        try {
            Pkder.requireDer(kind(), document, limits);
            return Pkder.check(kind(), document, limits).toString();
        } catch (FaultException | NotDerException why) {
            return why.getMessage();
        }
    }

    /** What a report tells of what check is asked for: its second line, and that of its numbers. */
    private List<String> reported() {
        Report report = Pkder.explain(kind(), document, ReportForm.TEXT, limits);
        String place = report.differsAt().isPresent() ? "not DER at " + report.differsAt().getAsLong() : "DER";
        String line = report.fault().map(Object::toString).orElse(place);
        return List.of(report.text().split("\n")[1], line);
    }
}
