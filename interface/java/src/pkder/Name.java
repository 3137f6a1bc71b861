package pkder;

/** A name in a subjectAltName or an issuerAltName. */
public sealed interface Name {
    /**
     * Answers what stands there, whatever its characters are.
     *
     * @return the text
     */
    String text();

    /**
     * A DNS name.
     *
     * @param text what stands there
     */
    record Dns(String text) implements Name {}

    /**
     * An e-mail address.
     *
     * @param text what stands there
     */
    record Email(String text) implements Name {}

    /**
     * A URI.
     *
     * @param text what stands there
     */
    record Uri(String text) implements Name {}

    /**
     * An IP address: four numbers, or eight groups of four hexadecimal digits; of another number of octets than 4 and
     * 16, what stands there.
     *
     * @param text the address
     */
    record Ip(String text) implements Name {}

    /**
     * A registered identifier.
     *
     * @param text its arcs
     */
    record Oid(String text) implements Name {}

    /**
     * A primitive element of a name of another type, as of a directoryName or an otherName: there is one of these for
     * each, and so none where it is empty.
     *
     * @param value what it says
     */
    record Other(Value value) implements Name {
        @Override
        public String text() {
            return value.toString();
        }
    }
}
