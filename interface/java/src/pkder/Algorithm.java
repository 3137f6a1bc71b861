package pkder;

import java.util.Optional;

/**
 * An algorithm.
 *
 * @param algorithm its usual name, else its arcs
 * @param parameters what its parameters name, as a curve
 */
public record Algorithm(String algorithm, Optional<String> parameters) {}
