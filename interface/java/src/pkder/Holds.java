package pkder;

import java.util.List;
import java.util.Optional;

/**
 * What a document holds; what one of its kind doesn't is empty. The lists can't be changed.
 *
 * @param key of {@link Kind#KEY} and {@link Kind#PUBLIC}
 * @param curve of {@link Kind#EC} the curve that it names, by its usual name, else by its arcs
 * @param algorithms of {@link Kind#ENCRYPTED} what its algorithm and the parameters of that name
 * @param numbers of {@link Kind#ENCRYPTED} the numbers from 0 to 2147483647 in the parameters, as how often a password
 *     is hashed
 */
public record Holds(Optional<Key> key, Optional<String> curve, List<String> algorithms, List<Long> numbers) {}
