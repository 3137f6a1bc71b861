import java.util.Objects;

/** What the tests share: claims, and octets in hex. */
final class Claims {
    private Claims() {}

    /** What may throw. */
    interface Attempt {
        void run() throws Exception;
    }

    static void holds(boolean claim, String what) {
        if (!claim) {
            throw new AssertionError(what);
        }
    }

    static void equal(Object found, Object due, String what) {
        holds(Objects.equals(found, due), what + ": " + found + " where due is " + due);
    }

    /** What the attempt throws, which has to be of this very class. */
    static <T extends Throwable> T thrown(Class<T> due, Attempt attempt, String what) {
        try {
            attempt.run();
        } catch (Throwable found) {
            if (found.getClass() == due) {
                return due.cast(found);
            }
            throw new AssertionError(what + " throws " + found, found);
        }
        throw new AssertionError(what + " throws nothing");
    }

    static byte[] octets(String hex) {
        byte[] octets = new byte[hex.length() / 2];
        for (int at = 0; at < octets.length; at++) {
            octets[at] =
                (byte) (Character.digit(hex.charAt(2 * at), 16) << 4 | Character.digit(hex.charAt(2 * at + 1), 16));
        }
        return octets;
    }
}
