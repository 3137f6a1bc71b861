import java.lang.reflect.InvocationTargetException;
import java.lang.reflect.Method;
import java.util.List;
import java.util.Optional;
import java.util.OptionalLong;
import java.util.stream.Collectors;
import pkder.Asks;
import pkder.Holds;
import pkder.Name;
import pkder.NameAttribute;

/** What the package makes of reports by their text: the reader of JSON, and what no document brings. */
final class Told {
    // Names of other kinds, values that are no strings, types that aren't known, and keys of a later library.
    private static final String TEXT = String.join("\n",
        "{'form':1,'later':[-1.5,null],'asks':{'subject':[[{'identifier':'1.2.3','value':{'integer':5}}]],",
        "'key':{'algorithm':'1.2.4','later':0},'signature':{'algorithm':'1.2.5'},'attributes':['1.2.6'],",
        "'extensions':[{'identifier':'2.5.29.17','name':'subjectAltName','critical':true,'at':9,",
        "'carries':{'verdict':'der'},'names':[{'field':'type','value':{'identifier':'2.5.4.3','name':'commonName'}},",
        "{'field':'value','text':'x'},{'dns':''},{'email':'a@b'},{'uri':'u:'},{'oid':'1.2'},{'ip':'0102030405'}]},",
        "{'identifier':'2.5.29.37','name':'extKeyUsage','critical':true,'at':9,'carries':{'verdict':'der'},",
        "'values':[{'value':{'identifier':'1.2.8'}}]},{'identifier':'1.2.7','critical':true,'at':9,'values':[]}]}}");

    private Told() {}

    /** What the package makes of the text, in which ' stands for ". */
    private static Object made(String type, String call, String text) throws Exception {
        Method method = Class.forName("pkder." + type).getDeclaredMethod(call, String.class);
        method.setAccessible(true);
        try {
            return method.invoke(null, text.replace('\'', '"'));
        } catch (InvocationTargetException why) {
            if (why.getCause() instanceof IllegalStateException) {
                throw(IllegalStateException) why.getCause();
            }
            throw why;
        }
    }

    private static Asks asks(String text) throws Exception {
        return (Asks) made("Told", "asks", text);
    }

    private static String read(String text) throws Exception {
        return made("JsonReader", "read", text).toString();
    }

    private static void refused(String call, String text) {
        String type = call.equals("read") ? "JsonReader" : "Told";
        Claims.thrown(IllegalStateException.class, () -> made(type, call, text), text);
    }

    static void asked() throws Exception {
        Asks asked = asks(TEXT);
        NameAttribute attribute = asked.subject().get(0).get(0);
        Claims.equal(attribute.text(), Optional.empty(), "no string");
        Claims.equal(attribute.value().orElseThrow().integer(), OptionalLong.of(5), "a number");
        List<Name> names = asked.san().orElseThrow();
        Claims.equal(names.stream().map(it -> it.getClass().getSimpleName()).collect(Collectors.toList()),
            List.of("Other", "Other", "Dns", "Email", "Uri", "Oid", "Ip"), "kinds of names");
        Claims.equal(names.stream().map(Name::text).collect(Collectors.toList()),
            List.of("commonName", "x", "", "a@b", "u:", "1.2", "0102030405"), "names");
        Claims.equal(asked.dns() + " " + asked.keyUsage() + " " + asked.extendedKeyUsage() + " " + asked.isCa(),
            "Optional[[]] Optional[[]] Optional[[1.2.8]] Optional[false]", "what is told");
        Claims.equal(asked.extensions().get(2).name().isPresent() || asked.extensions().get(2).verdict().isPresent(),
            false, "a type that isn't known");
    }

    static void untold() throws Exception {
        for (String text : List.of(TEXT.replace("'der'", "'not_der'"), TEXT.replace(",\n'carries'", ",\n'later'"),
                 TEXT.replace("extKeyUsage", "subjectAltName"))) {
            Claims.holds(!text.equals(TEXT), "another text");
            Claims.equal(asks(text).san(), Optional.empty(), text);
            Claims.equal(asks(text).dns(), Optional.empty(), text);
        }
        Claims.equal(asks(TEXT.replace("extKeyUsage", "basicConstraints").replace("'der'", "'refused'")).isCa(),
            Optional.empty(), "whether it is a CA");
    }

    static void otherReports() throws Exception {
        for (String[] change : new String[][] {{"'critical':true,", ""}, {"'at':9", "'at':-9"}, {"'at':9", "'at':'9'"},
                 {"'der'", "'later'"}, {"{'dns':''}", "{'dns':null}"}, {"{'integer':5}", "5"}, {"['1.2.6']", "[6]"},
                 {"'attributes':['1.2.6'],", ""}, {"{'algorithm':'1.2.5'}", "{}"}, {"]}}", "]}"}}) {
            Claims.holds(TEXT.contains(change[0]), change[0]);
            refused("asks", TEXT.replace(change[0], change[1]));
        }
        for (String text : List.of("", "{}", "[]", "{'asks':{'subject':1}}", "{'asks':null}")) {
            refused("asks", text);
        }
        String scheme = "{'holds':{'encryption':{'numbers':['%s'],'algorithms':['1.2']}}}";
        for (String text : List.of("", "{}", "{'holds':1}", String.format(scheme, "x"), String.format(scheme, "+1"),
                 String.format(scheme, ""), String.format(scheme, "9".repeat(30)))) {
            refused("holds", text);
        }
        Holds held = (Holds) made("Told", "holds", String.format(scheme, "07"));
        Claims.equal(
            held.numbers() + " " + held.algorithms() + " " + held.key(), "[7] [1.2] Optional.empty", "a scheme");
    }

    static void json() throws Exception {
        Claims.equal(read(" [ 1 , true ,\tfalse,\r\nnull,-0.50E+2 ] ").replaceAll("Word\\[characters=([^]]*)]", "$1"),
            "Items[items=[1, true, false, null, -0.50E+2]]", "a list");
        Claims.equal(read("{'a':{'':{}}}"), "Members[members={a=Members[members={=Members[members={}]}]}]", "objects");
        Claims.equal(read("'\\'\\\\\\/\\b\\f\\n\\r\\t\\u0041\\u00e9\\uD83D\\ude00 M\u00fcller'"),
            "Text[characters=\"\\/\b\f\n\r\tA\u00e9\ud83d\ude00 M\u00fcller]", "a text");
        String lists = "{ [ ] [1 [1, [1,] [,1] [1;2] {'a'} {'a':} {'a':1,} {,} {a:1} {1:1} {}{} {'a':1,'\\u0061':2}";
        String scalars = "tru True nulll 01 - +1 .5 1. 1e 1e+ 0x1 1.e1 NaN \u0661 `a` 1, ";
        String texts = "' '\\x' '\\ '\\u' '\\u12g4' '\\u+123' '\\u00\u00e9' '\\u\uff11234' '\\ud800' '\\udc00' "
            + "'\\ud800\\u0041' '\\ud800x' '\\u{41}'";
        for (String text : String.join(" ", lists, scalars, texts).split(" ")) {
            refused("read", text);
        }
        for (String text : List.of("", " ", "[1 2]", "1 2", "'\n'", "'\u001f'", "\ufeff1", "\u00a01", "1\0")) {
            refused("read", text);
        }
        nearly("{'a':[{'b':'\\ud83d\\ude00\u00e9\\n','c':-1.5e+3},true,null],'d':{}}");
        read("[".repeat(32) + "]".repeat(32));
        refused("read", "[".repeat(33) + "]".repeat(33));
        refused("read", "[".repeat(1_000_000));
        refused("read", "{'':".repeat(1_000_000));
    }

    /** The text with one character left out, doubled or another one is read or refused, and nothing else happens. */
    private static void nearly(String text) throws Exception {
        read(text);
        for (int at = 0; at < text.length(); at++) {
            String before = text.substring(0, at);
            for (String there : List.of("", text.substring(at, at + 1).repeat(2), "'", "\\", "{", "9", "\0")) {
                try {
                    read(before + there + text.substring(at + 1));
                } catch (IllegalStateException why) {
                    continue;
                }
            }
            refused("read", before);
        }
    }
}
