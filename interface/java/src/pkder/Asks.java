package pkder;

import java.util.List;
import java.util.Optional;
import java.util.function.Function;

/**
 * What a request asks for, in the order of the file; its signature isn't verified. The lists can't be changed. What its
 * methods answer is empty where it can't be told: the value of the extension isn't in DER, or the request has it twice.
 *
 * @param subject a list for each relative name
 * @param key its public key
 * @param signature the algorithm of its signature
 * @param attributes the names of its attributes but extensionRequest, whose values aren't told
 * @param extensions what extensionRequest has
 */
public record Asks(List<List<NameAttribute>> subject, Key key, Algorithm signature, List<String> attributes,
    List<Extension> extensions) {
    /**
     * Answers the names of the subjectAltName, of whatever kind.
     *
     * @return the names, none where it isn't there; nothing where that can't be told
     */
    public Optional<List<Name>> san() {
        return told("subjectAltName", Extension::names);
    }

    /**
     * Answers those names of the subjectAltName that are {@link Name.Dns}: {@link #san} has the others.
     *
     * @return the names, none where it isn't there; nothing where that can't be told
     */
    public Optional<List<String>> dns() {
        return san().map(names -> names.stream().filter(Name.Dns.class ::isInstance).map(Name::text).toList());
    }

    /**
     * Answers the names of the bits of the keyUsage that are 1.
     *
     * @return the names, none where it isn't there; nothing where that can't be told
     */
    public Optional<List<String>> keyUsage() {
        return told("keyUsage", Extension::bits);
    }

    /**
     * Answers the purposes of the extKeyUsage.
     *
     * @return their usual names, else their arcs, none where it isn't there; nothing where that can't be told
     */
    public Optional<List<String>> extendedKeyUsage() {
        return told("extKeyUsage", Extension::values).map(it -> it.stream().map(Value::toString).toList());
    }

    /**
     * Says whether the basicConstraints has cA TRUE. Where no CA is granted, what can't be told is refused, too: {@code
     * isCa().orElse(true)}.
     *
     * @return whether it has, false where it isn't there; nothing where that can't be told
     */
    public Optional<Boolean> isCa() {
        return told("basicConstraints", Extension::values).map(it -> it.stream().anyMatch(Asks::isTrueCa));
    }

    private static boolean isTrueCa(Value value) {
        return value.field().equals(Optional.of("cA")) && value.isTrue().orElse(false);
    }

    private <T> Optional<List<T>> told(String name, Function<Extension, List<T>> part) {
        List<Extension> found = extensions.stream().filter(it -> it.name().equals(Optional.of(name))).toList();
        if (found.isEmpty()) {
            return Optional.of(List.of());
        }
        boolean isSure = found.size() == 1 && found.get(0).verdict().equals(Optional.of(Carried.DER));
        return isSure ? Optional.of(part.apply(found.get(0))) : Optional.empty();
    }
}
