package pkder;

import java.util.Optional;

/**
 * An attribute of the subject. Of one in segments (BER) there is neither text nor value.
 *
 * @param identifier the arcs of its type
 * @param name the usual name of its type
 * @param text its characters, of a string
 * @param value what it says, of one that is no string
 */
public record NameAttribute(String identifier, Optional<String> name, Optional<String> text, Optional<Value> value) {}
