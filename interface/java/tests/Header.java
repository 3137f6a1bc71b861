import java.lang.reflect.Field;
import java.lang.reflect.Method;
import java.lang.reflect.Modifier;
import java.nio.charset.StandardCharsets;
import java.nio.file.Files;
import java.nio.file.Path;
import java.util.Locale;
import java.util.Map;
import java.util.Set;
import java.util.TreeMap;
import java.util.regex.Matcher;
import java.util.regex.Pattern;
import pkder.Kind;
import pkder.Limits;
import pkder.Part;
import pkder.Reason;
import pkder.ReportForm;

/** The numbers and names of pkder.h, which PKDER_HEADER names, beside those of the package. */
final class Header {
    private static final Pattern NUMBER =
        Pattern.compile("^#define PKDER_(\\w+) (?:UINT64_C\\()?([0-9]+)[u)]?", Pattern.MULTILINE);
    // The native code asks for these by the header itself.
    private static final Set<String> NATIVE = Set.of("STACK", "NO_ROOM", "UNREPORTED");

    private Header() {}

    static void numbers() throws Exception {
        Map<String, Integer> due = ofHeader();
        Claims.holds(due.keySet().containsAll(NATIVE) && due.size() > 50, due.toString());
        due.keySet().removeAll(NATIVE);
        Claims.equal(ofPackage(), due, "numbers of pkder.h");
    }

    private static Map<String, Integer> ofHeader() throws Exception {
        Matcher lines = NUMBER.matcher(Files.readString(Path.of(System.getenv("PKDER_HEADER"))));
        Map<String, Integer> found = new TreeMap<>();
        while (lines.find()) {
            found.put(lines.group(1), Integer.parseInt(lines.group(2)));
        }
        return found;
    }

    private static Map<String, Integer> ofPackage() throws Exception {
        Map<String, Integer> found = new TreeMap<>();
        for (Kind kind : Kind.values()) {
            found.put(kind.name(), kind.number());
        }
        for (Part part : Part.values()) {
            found.put(part.name(), part.number());
        }
        for (Reason reason : Reason.values()) {
            found.put("REASON_" + reason.name(), reason.number());
        }
        Claims.equal(found.remove("REASON_UNKNOWN"), 0, "no reason");
        putConstants(found, "pkder.Outcome");
        putConstants(found, "pkder.Native");
        putLimits(found);
        putForms(found);
        return found;
    }

    private static void putConstants(Map<String, Integer> found, String name) throws Exception {
        for (Field field : Class.forName(name).getDeclaredFields()) {
            if (Modifier.isStatic(field.getModifiers()) && !field.getName().endsWith("_PLACE")) {
                field.setAccessible(true);
                found.put(field.getName(), field.getInt(null));
            }
        }
    }

    private static void putLimits(Map<String, Integer> found) {
        found.put("DEPTH", Limits.USUAL.depth());
        found.put("OCTETS", Limits.USUAL.octets());
        int depth = 1;
        while (isDepth(depth + 1)) {
            depth++;
        }
        found.put("MOST_DEPTH", depth);
        found.put("MOST_OCTETS", new Limits(1, Integer.MAX_VALUE).octets());
    }

    private static boolean isDepth(int depth) {
        try {
            return new Limits(depth, 1).depth() == depth;
        } catch (IllegalArgumentException why) {
            return false;
        }
    }

    private static void putForms(Map<String, Integer> found) {
        found.put("ALL", ReportForm.ALL.number());
        found.put("JSON", ReportForm.JSON.number());
        found.put("TLS", ReportForm.TLS.number());
        Claims.equal(ReportForm.TEXT.number(), 0, "the usual form");
        Claims.equal(ReportForm.ALL_JSON.number(), ReportForm.ALL.number() + ReportForm.JSON.number(), "both forms");
        for (ReportForm form : new ReportForm[] {ReportForm.ALL, ReportForm.JSON, ReportForm.ALL_JSON}) {
            int due = form.number() + ReportForm.TLS.number();
            Claims.equal(ReportForm.valueOf(form.name() + "_TLS").number(), due, form + " with notes");
        }
    }

    /** The library's name of each reason is the constant's, in other letters. */
    static void names() throws Exception {
        Method nameOf = Class.forName("pkder.Native").getDeclaredMethod("reasonName", int.class);
        nameOf.setAccessible(true);
        for (Reason reason : Reason.values()) {
            String due = reason == Reason.UNKNOWN ? "" : reason.name().replace("_", "");
            String name = new String((byte[]) nameOf.invoke(null, reason.number()), StandardCharsets.US_ASCII);
            Claims.equal(name.toUpperCase(Locale.ROOT), due, "name of a reason");
        }
    }
}
