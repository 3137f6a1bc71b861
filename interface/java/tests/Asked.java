import java.nio.file.Files;
import java.nio.file.Path;
import java.util.Arrays;
import java.util.LinkedHashMap;
import java.util.List;
import java.util.Map;
import java.util.Optional;
import java.util.stream.Collectors;
import pkder.Asks;
import pkder.Extension;
import pkder.FaultException;
import pkder.Holds;
import pkder.Key;
import pkder.Kind;
import pkder.Limits;
import pkder.Pkder;
import pkder.Reason;
import pkder.Value;

/**
 * What requests of the repository ask for, and what other documents hold, as {@code openssl req -text} and {@code
 * openssl asn1parse} show it. They lie above the folder of PKDER_HEADER.
 */
final class Asked {
    private static final String EXPLAINED = "tests/pkder/explained/";

    private Asked() {}

    /** The octets of a document of the repository. */
    private static byte[] octetsOf(String name) throws Exception {
        Path header = Path.of(System.getenv("PKDER_HEADER")).toAbsolutePath();
        return Files.readAllBytes(header.getParent().resolveSibling(name + ".der"));
    }

    private static Asks asksOf(String name) throws Exception {
        return Pkder.asks(octetsOf(name));
    }

    /** The attributes of the subject by their names and characters. */
    private static String subject(Asks asked) {
        return asked.subject()
            .stream()
            .flatMap(List::stream)
            .map(it -> it.name().orElse("") + "=" + it.text().orElse("no text"))
            .collect(Collectors.joining(", "));
    }

    private static String fact(Optional<?> told) {
        return told.isPresent() ? told.get().toString() : "untold";
    }

    /** The names, the DNS names, the usages, the purposes, and whether it asks for a CA. */
    private static String facts(Asks asked) {
        return String.join("; ", fact(asked.san()), fact(asked.dns()), fact(asked.keyUsage()),
            fact(asked.extendedKeyUsage()), fact(asked.isCa()));
    }

    static void requests() throws Exception {
        String common = "commonName=www.example.org; ";
        String two = "; [Dns[text=www.example.com], Dns[text=example.com]]; [www.example.com, example.com]; ";
        Map<String, String> due = new LinkedHashMap<>();
        due.put(EXPLAINED + "extensions-sound",
            common + "[Dns[text=www.example.org], Ip[text=192.0.2.17]]; [www.example.org]; "
                + "[digitalSignature, keyEncipherment]; [id-kp-serverAuth]; false");
        due.put("examples/request-p256",
            "countryName=US, organizationName=Example, commonName=www.example.com" + two + "[]; []; false");
        due.put("examples/request-rsa2048",
            "countryName=US, organizationName=Example, commonName=rsa.example.com; []; []; []; []; false");
        // (its strings are in segments, and the value of the subjectAltName, too)
        due.put("examples/request-indefinite",
            "countryName=no text, organizationName=no text, commonName=no text" + two + "[]; []; false");
        due.put(EXPLAINED + "critical-false",
            "countryName=DE, organizationName=M\u00fcller und S\u00f6hne GmbH, commonName=www.example.com" + two
                + "[digitalSignature]; []; false");
        due.put(EXPLAINED + "note-extension-length", common + "untold; untold; []; []; false");
        due.put(EXPLAINED + "note-extension-text", common + "untold; untold; []; []; false");
        due.put(EXPLAINED + "note-extension-empty", common + "[]; []; []; untold; false");
        due.put(EXPLAINED + "note-extension-true", common + "[]; []; []; []; untold");
        due.put(EXPLAINED + "note-extension-false", common + "[]; []; []; []; untold");
        for (Map.Entry<String, String> each : due.entrySet()) {
            Asks asked = asksOf(each.getKey());
            Claims.equal(subject(asked) + "; " + facts(asked), each.getValue(), each.getKey());
        }
        Claims.equal(facts(asksOf(EXPLAINED + "note-extension-twice")),
            "[Dns[text=a.example]]; [a.example]; untold; []; false", "an extension twice");
    }

    /** Whatever is told of a key. */
    private static String words(Key key) {
        return String
            .join(" ", key.algorithm(), key.parameters().orElse("-"), key.octets().toString(), fact(key.verdict()),
                key.bits().toString(), key.exponent().orElse("-"))
            .replace("OptionalLong", "")
            .replace(".empty", "-");
    }

    static void keys() throws Exception {
        Map<String, String> due = Map.of(EXPLAINED + "extensions-sound", "Ed25519 - [32] untold - -; Ed25519",
            "examples/request-p256", "id-ecPublicKey P-256 [65] untold - -; ecdsa-with-SHA256",
            "examples/request-rsa2048", "rsaEncryption - [270] DER [2048] 65537; sha256WithRSAEncryption",
            "examples/request-indefinite", "id-ecPublicKey P-256 - untold - -; ecdsa-with-SHA256");
        for (Map.Entry<String, String> each : due.entrySet()) {
            Asks asked = asksOf(each.getKey());
            Claims.equal(words(asked.key()) + "; " + asked.signature().algorithm(), each.getValue(), each.getKey());
            Claims.equal(asked.signature().parameters(), Optional.empty(), each.getKey());
        }
    }

    static void extensions() throws Exception {
        Asks asked = asksOf(EXPLAINED + "extensions-sound");
        List<String> found = asked.extensions().stream().map(Asked::words).collect(Collectors.toList());
        Claims.equal(found,
            List.of("2.5.29.17 subjectAltName false 101 DER", "2.5.29.15 keyUsage true 135 DER",
                "2.5.29.37 extKeyUsage false 151 DER", "2.5.29.19 basicConstraints true 172 DER"),
            "extensions");
        Claims.equal(asked.attributes(), List.of(), "attributes");
        Value purpose = asked.extensions().get(2).values().get(0);
        Claims.equal(
            purpose.identifier() + " " + purpose.field(), "Optional[1.3.6.1.5.5.7.3.1] Optional.empty", "a purpose");
        Claims.equal(asked, asksOf(EXPLAINED + "extensions-sound"), "the same again");
        asked = asksOf(EXPLAINED + "critical-false");
        Claims.equal(asked.attributes(), List.of("challengePassword"), "attributes");
        Claims.holds(!asked.toString().contains("secret"), "values of attributes");
        Claims.equal(words(asksOf(EXPLAINED + "note-extension-length").extensions().get(0)).split(" ")[4], "NOT_DER",
            "a value in BER");
        Claims.equal(words(asksOf(EXPLAINED + "note-extension-text").extensions().get(0)).split(" ")[4], "REFUSED",
            "no value of the type");
    }

    private static String words(Extension it) {
        return String.join(
            " ", it.identifier(), it.name().orElse("-"), it.critical() + "", it.at() + "", fact(it.verdict()));
    }

    /** A request for a CA. */
    static void authority() throws Exception {
        byte[] request = octetsOf(EXPLAINED + "note-extension-true");
        // (its TRUE is another octet than FF)
        int at = 0;
        while (request[at] != 0x30 || request[at + 1] != 3 || request[at + 2] != 1 || request[at + 3] != 1) {
            at++;
        }
        request[at + 4] = (byte) 0xff;
        Asks asked = Pkder.asks(request);
        Claims.equal(facts(asked), "[]; []; []; []; true", "a request for a CA");
        Value value = asked.extensions().get(0).values().get(0);
        Claims.equal(value.field() + " " + value.isTrue() + " " + value, "Optional[cA] Optional[true] true", "cA");
    }

    static void refusedRequests() throws Exception {
        byte[] whole = octetsOf("examples/request-p256");
        for (byte[] request :
            List.of(new byte[0], Arrays.copyOf(whole, whole.length - 1), octetsOf("examples/public-p256"))) {
            Claims.thrown(FaultException.class, () -> Pkder.asks(request), "no request");
        }
        byte[] followed = octetsOf("examples/request-followed");
        FaultException why = Claims.thrown(FaultException.class, () -> Pkder.asks(followed), "octets after it");
        Claims.equal(why.getMessage(), "fault at 148: Trailing", "octets after it");
        Limits few = new Limits(32, 100);
        why = Claims.thrown(FaultException.class, () -> Pkder.asks(whole, few), "100 octets");
        Claims.equal(why.reason(), Reason.TOO_LONG, "100 octets");
    }

    private static Holds holdsOf(String name, Kind kind) throws Exception {
        return Pkder.holds(kind, octetsOf("examples/" + name));
    }

    private static String words(Holds held) {
        return held.key().map(Asked::words).orElse("no key") + "; " + held.curve().orElse("-") + "; "
            + held.algorithms() + "; " + held.numbers();
    }

    static void held() throws Exception {
        Claims.equal(
            words(holdsOf("rsa2048", Kind.KEY)), "rsaEncryption - - untold [2048] 65537; -; []; []", "rsa2048");
        Claims.equal(words(holdsOf("p384", Kind.KEY)), "id-ecPublicKey P-384 - untold - -; -; []; []", "p384");
        Claims.equal(words(holdsOf("public-rsa2048", Kind.PUBLIC)), "rsaEncryption - [270] DER [2048] 65537; -; []; []",
            "public-rsa2048");
        Claims.equal(words(holdsOf("public-p256", Kind.PUBLIC)), "id-ecPublicKey P-256 [65] untold - -; -; []; []",
            "public-p256");
        Claims.equal(
            words(holdsOf("public-indefinite", Kind.PUBLIC)), "Ed25519 - - untold - -; -; []; []", "in segments");
        Claims.equal(words(holdsOf("k256-sec1", Kind.EC)), "no key; secp256k1; []; []", "k256-sec1");
        Claims.equal(words(holdsOf("encrypted-keytool", Kind.ENCRYPTED)),
            "no key; -; [id-PBES2, id-PBKDF2, id-hmacWithSHA256, aes256-CBC-PAD]; [10000, 32]", "encrypted");
        byte[] bare = Claims.octets("30250201010420"
            + "11".repeat(32));
        Claims.equal(words(Pkder.holds(Kind.EC, bare)), "no key; -; []; []", "no curve");
    }

    /** Public keys of RSA by the contents of their BIT STRINGs (X.690 8.3). */
    static void keysOfRsa() throws Exception {
        Map<String, String> due =
            Map.of("003006020121020103", "[8] DER [6] 3", "0030090202ff7f0203010001", "[11] DER - 65537",
                "00300d0206008000000000020300ffff", "[15] DER [40] 65535", "00300b02020101020500ffffffff",
                "[13] DER [9] 0x00ffffffff", "0030060201210201ff", "[8] DER [6] 0xff", "00308106020121020103",
                "[9] NOT_DER - -", "003003020121", "[5] REFUSED - -", "013006020121020102", "[8] REFUSED - -");
        for (Map.Entry<String, String> each : due.entrySet()) {
            int length = each.getKey().length() / 2;
            String key = String.format("300d06092a864886f70d010101050003%02x%s", length, each.getKey());
            Holds held = Pkder.holds(Kind.PUBLIC, Claims.octets(String.format("30%02x%s", key.length() / 2, key)));
            Claims.equal(words(held), "rsaEncryption - " + each.getValue() + "; -; []; []", each.getKey());
        }
    }

    static void refusedDocuments() {
        Claims.thrown(FaultException.class, () -> Pkder.holds(Kind.KEY, new byte[0]), "no octets");
        for (Kind kind : List.of(Kind.REQUEST, Kind.PACKAGE)) {
            Claims.thrown(IllegalArgumentException.class, () -> Pkder.holds(kind, new byte[0]), "a kind");
        }
    }
}
