import java.util.Arrays;

/** Documents that several tests hand over. */
final class Documents {
    private static final byte[] BEFORE_PRIVATE_KEY = Claims.octets("302e020100300506032b657004220420");
    private static final int PRIVATE_KEY = 32;

    private Documents() {}

    /** An Ed25519 key in DER. The octets of its private key stand nowhere else until it is made. */
    static byte[] key() {
        byte[] key = Arrays.copyOf(BEFORE_PRIVATE_KEY, BEFORE_PRIVATE_KEY.length + PRIVATE_KEY);
        for (int at = BEFORE_PRIVATE_KEY.length; at < key.length; at++) {
            key[at] = (byte) (151 * at + 7);
        }
        return key;
    }

    /** The same with an outer length of two octets. */
    static byte[] keyInBer() {
        byte[] key = key();
        byte[] inBer = new byte[key.length + 1];
        System.arraycopy(key, 1, inBer, 2, key.length - 1);
        inBer[0] = 0x30;
        inBer[1] = (byte) 0x81;
        Arrays.fill(key, (byte) 0);
        return inBer;
    }

    /** Its first octets. */
    static byte[] cutKey() {
        return Arrays.copyOf(key(), 20);
    }

    /** A request with a subject of 400 names that ends after the algorithm of its public key. */
    static byte[] cutRequest() {
        return Claims.octets("30827fff30827ff002010030821450"
            + "310b300906035504030c026161".repeat(400) + "302a300506032b6570");
    }

    /** A public key in BER whose parameters are SETs of SETs, nested to this depth. */
    static byte[] deep(int depth) {
        int sets = depth - 4;
        String nested = "3180".repeat(sets) + "3106040102040101"
            + "0000".repeat(sets);
        return Claims.octets("3080308006012a" + nested + "0000030200010000");
    }
}
