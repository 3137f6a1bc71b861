package pkder;

import java.util.Optional;
import java.util.OptionalLong;
import java.util.stream.Stream;

/**
 * What a primitive element says; what it doesn't say is empty.
 *
 * @param field the name of its field; nothing of a member of a list
 * @param text the characters of a string
 * @param identifier the arcs of an object identifier
 * @param name the usual name of these
 * @param isTrue of a BOOLEAN, whether it is TRUE
 * @param integer a number
 * @param octets how many octets there are
 * @param hexadecimal these in hexadecimal digits
 */
public record Value(Optional<String> field, Optional<String> text, Optional<String> identifier, Optional<String> name,
    Optional<Boolean> isTrue, OptionalLong integer, OptionalLong octets, Optional<String> hexadecimal) {
    /** Its characters, its usual name or arcs, its octets in hexadecimal digits, its number, or whether it is TRUE. */
    @Override
    public String toString() {
        Stream<Optional<String>> said = Stream.of(text, name, identifier, hexadecimal);
        String number = integer.isPresent() ? Long.toString(integer.getAsLong()) : "";
        return said.flatMap(Optional::stream).findFirst().orElse(isTrue.map(String::valueOf).orElse(number));
    }
}
