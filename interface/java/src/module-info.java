/** Private keys, public keys and certification requests in BER and DER, by libpkder. */
module pkder {
    exports pkder;
}
