package pkder;

import java.util.List;
import java.util.Map;
import java.util.Optional;
import java.util.function.Function;

/** What reports in JSON tell, as types. IllegalStateException is thrown of a report that doesn't. */
final class Told {
    private static final Json NONE = new Json.Members(Map.of());
    private static final Map<String, Carried> VERDICTS =
        Map.of("der", Carried.DER, "not_der", Carried.NOT_DER, "refused", Carried.REFUSED);

    private Told() {}

    static Asks asks(String report) {
        Json told = JsonReader.read(report).member("asks");
        List<List<NameAttribute>> subject = told.member("subject").list(it -> it.list(Told::nameAttribute));
        List<String> attributes = told.member("attributes").list(Json::text);
        List<Extension> extensions = told.member("extensions").list(Told::extension);
        return new Asks(subject, key(told.member("key")), algorithm(told.member("signature")), attributes, extensions);
    }

    static Holds holds(String report) {
        Json told = JsonReader.read(report).member("holds");
        Optional<Json> scheme = told.optional("encryption");
        List<String> algorithms = scheme.map(it -> it.member("algorithms").list(Json::text)).orElse(List.of());
        Function<Json, Long> number = it -> Json.number(it.text());
        List<Long> numbers = scheme.map(it -> it.member("numbers").list(number)).orElse(List.of());
        return new Holds(told.optional("key").map(Told::key), told.optionalText("curve"), algorithms, numbers);
    }

    private static Algorithm algorithm(Json told) {
        return new Algorithm(told.member("algorithm").text(), told.optionalText("parameters"));
    }

    private static Key key(Json told) {
        return new Key(told.member("algorithm").text(), told.optionalText("parameters"), told.optionalNumber("octets"),
            verdict(told), told.optionalNumber("bits"), told.optionalText("exponent"));
    }

    private static Optional<Carried> verdict(Json told) {
        Optional<Json> carries = told.optional("carries");
        Optional<Carried> verdict = carries.map(it -> VERDICTS.get(it.member("verdict").text()));
        Json.require(verdict.isPresent() == carries.isPresent());
        return verdict;
    }

    private static NameAttribute nameAttribute(Json told) {
        return new NameAttribute(told.member("identifier").text(), told.optionalText("name"), told.optionalText("text"),
            told.optional("value").map(it -> value(it, NONE)));
    }

    private static Extension extension(Json told) {
        return new Extension(told.member("identifier").text(), told.optionalText("name"),
            told.member("critical").isTrue(), told.member("at").number(), verdict(told),
            told.optionalList("names", Told::name), told.optionalList("bits", Json::text),
            told.optionalList("values", Told::value));
    }

    private static Name name(Json told) {
        Optional<Name> found = told.optionalText("dns").map(Name.Dns::new);
        found = found.or(() -> told.optionalText("email").map(Name.Email::new));
        found = found.or(() -> told.optionalText("uri").map(Name.Uri::new));
        found = found.or(() -> told.optionalText("ip").map(Name.Ip::new));
        found = found.or(() -> told.optionalText("oid").map(Name.Oid::new));
        return found.orElseGet(() -> new Name.Other(value(told)));
    }

    private static Value value(Json told) {
        return value(told.optional("value").orElse(NONE), told);
    }

    /** Of what it says, and of the element that it is the value of. */
    private static Value value(Json said, Json element) {
        return new Value(element.optionalText("field"), element.optionalText("text"), said.optionalText("identifier"),
            said.optionalText("name"), said.optional("boolean").map(Json::isTrue), said.optionalNumber("integer"),
            said.optionalNumber("octets"), said.optionalText("hexadecimal"));
    }
}
