import java.nio.file.Path;
import java.util.Locale;
import pkder.FaultException;
import pkder.Kind;
import pkder.Limits;
import pkder.Pkder;

/** The pairs of documents that PKDER_PAIRS names; interface/pairs.py makes them. */
final class Pairs {
    private Pairs() {}

    static void all() throws Exception {
        int pairs = 0;
        try (Table table = new Table(Path.of(System.getenv("PKDER_PAIRS")))) {
            while (!table.isAtEnd()) {
                String rule = table.text();
                Kind kind = Kind.valueOf(table.text().toUpperCase(Locale.ROOT));
                Limits limits = new Limits(Integer.parseInt(table.text()), Integer.parseInt(table.text()));
                String answer = answer(kind, table.octets(), table.octets(), limits);
                Claims.equal(answer, table.text(), rule + ", " + kind);
                pairs++;
            }
        }
        Claims.holds(pairs > 1000, pairs + " pairs");
    }

    /** What is answered, in the words of the table. */
    private static String answer(Kind kind, byte[] first, byte[] second, Limits limits) {
        try {
            return Pkder.same(kind, first, second, limits) ? "the same" : "another";
        } catch (FaultException why) {
            return why.getMessage();
        }
    }
}
