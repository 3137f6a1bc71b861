package pkder;

/**
 * The library's calls, by native/pkder_jni.c. Each judges copies of what it is given, made when it begins and wiped
 * when it ends, and answers what was written in an array of just these octets, or null where nothing was.
 */
final class Native {
    static final int INTERFACE = 1;

    static {
        Library.load();
        if (interfaceNumber() != INTERFACE) {
            throw new UnsatisfiedLinkError("libpkder has another interface than " + INTERFACE);
        }
    }

    private Native() {}

    private static native int interfaceNumber();

    static native byte[] check(int kind, int depth, int octets, byte[] document, long[] outcome);

    static native void same(int kind, int depth, int octets, byte[] first, byte[] second, long[] outcome);

    static native byte[] normalise(int kind, int depth, int octets, byte[] document, long[] outcome);

    static native byte[] signed(int part, int depth, int octets, byte[] document, long[] outcome);

    static native byte[] show(int kind, int depth, int octets, byte[] document, long[] outcome);

    static native byte[] explain(int kind, int depth, int octets, int form, byte[] document, long[] outcome);

    static native byte[] field(int kind, int depth, int octets, byte[] document, long[] outcome);

    static native byte[] reasonName(int reason);
}
