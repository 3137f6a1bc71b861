package pkder;

import java.util.Optional;
import java.util.OptionalLong;

/**
 * A key by its algorithm. The last three are there of a public key of RSA alone, but that a private one has bits, and an
 * exponent below 2147483648.
 *
 * @param algorithm the usual name of its algorithm, else the arcs of that
 * @param parameters what the parameters of its algorithm name, as a curve
 * @param octets how many octets a public key has; nothing of one in segments (BER)
 * @param verdict what it is as an RSAPublicKey
 * @param bits of one in DER, how many bits its modulus has; nothing where that is negative
 * @param exponent of one in DER, its exponent in decimal digits; from 2147483648 on, and below 0, by its first octets
 *     in hexadecimal ones, as "0x0100000001"
 */
public record Key(String algorithm, Optional<String> parameters, OptionalLong octets, Optional<Carried> verdict,
    OptionalLong bits, Optional<String> exponent) {}
