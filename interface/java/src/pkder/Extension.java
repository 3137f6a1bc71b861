package pkder;

import java.util.List;
import java.util.Optional;

/**
 * An extension. What stands in a value in DER is in one of the lists, and in all others nothing; they can't be changed.
 *
 * @param identifier its arcs
 * @param name its usual name
 * @param critical whether it is critical
 * @param at its place, in octets from the request's start
 * @param verdict what its value is as one of its type; nothing where the type isn't known
 * @param names of a subjectAltName or an issuerAltName
 * @param bits of a keyUsage the names of the bits that are 1
 * @param values of any other its primitive elements
 */
public record Extension(String identifier, Optional<String> name, boolean critical, long at, Optional<Carried> verdict,
    List<Name> names, List<String> bits, List<Value> values) {}
