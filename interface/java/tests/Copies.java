import com.sun.management.HotSpotDiagnosticMXBean;
import java.lang.management.ManagementFactory;
import java.nio.ByteBuffer;
import java.nio.channels.FileChannel;
import java.nio.file.Files;
import java.nio.file.Path;
import java.util.Arrays;
import pkder.FaultException;
import pkder.Kind;
import pkder.Pkder;

/**
 * Where the octets of a private key stand in Java's heap, as a dump of it tells: in the caller's two arrays and nowhere
 * else, and nowhere once these are wiped. COPIES_SECRET is these 32 octets, in hex. Where there is no word, no dump is
 * made, which has copies of its own.
 */
public final class Copies {
    private static final int BEFORE = 16;
    private static final int SECRET = 32;

    private Copies() {}

    /**
     * Runs the test.
     *
     * @param words "dump", or none
     * @throws Exception where it fails
     */
    public static void main(String[] words) throws Exception {
        boolean isDumped = words.length == 1;
        String secret = System.getenv("COPIES_SECRET");
        byte[] key = Arrays.copyOf(Documents.key(), BEFORE + SECRET);
        for (int at = 0; at < SECRET; at++) {
            key[BEFORE + at] = octet(secret, at);
        }
        Pkder.requireDer(Kind.KEY, key);
        Pkder.explain(Kind.KEY, key);
        Pkder.field(Kind.KEY, key);
        Pkder.holds(Kind.KEY, key);
        Pkder.show(Kind.KEY, key);
        byte[] text = Pkder.normalise(Kind.KEY, key);
        Claims.holds(Arrays.equals(text, key), "the text");
        compare(key, text);
        Claims.equal(isDumped ? places(secret) : 2, 2, "arrays with the private key");
        Arrays.fill(key, (byte) 0);
        Arrays.fill(text, (byte) 0);
        Claims.equal(isDumped ? places(secret) : 0, 0, "arrays with the private key once they are wiped");
        System.out.println("the heap's two arrays");
    }

    /**
     * Compares the two, which are the same, and has each of them refused: the first as another kind, and the second.
     */
    private static void compare(byte[] key, byte[] text) throws Exception {
        Claims.holds(Pkder.same(Kind.KEY, key, text), "the text is the same");
        byte[] longer = Arrays.copyOf(key, key.length + 1);
        Claims.equal(Claims.thrown(FaultException.class, () -> Pkder.same(Kind.EC, key, text), "no EC key").which(), 1,
            "the first is refused");
        Claims.equal(Claims.thrown(FaultException.class, () -> Pkder.same(Kind.KEY, text, longer), "longer").which(), 2,
            "the second is refused");
        Arrays.fill(longer, (byte) 0);
    }

    private static byte octet(String hex, int at) {
        return (byte) (Character.digit(hex.charAt(2 * at), 16) << 4 | Character.digit(hex.charAt(2 * at + 1), 16));
    }

    /** The places in a dump of the heap, what is garbage in it too, where the octets begin. */
    private static int places(String secret) throws Exception {
        Path folder = Files.createTempDirectory("pkder");
        Path file = folder.resolve("heap.hprof");
        try {
            ManagementFactory.getPlatformMXBean(HotSpotDiagnosticMXBean.class).dumpHeap(file.toString(), false);
            // (not read into the heap)
            try (FileChannel dump = FileChannel.open(file)) {
                return count(dump.map(FileChannel.MapMode.READ_ONLY, 0, dump.size()), secret);
            }
        } finally {
            Files.deleteIfExists(file);
            Files.delete(folder);
        }
    }

    private static int count(ByteBuffer dump, String secret) {
        int found = 0;
        for (int start = 0; start + SECRET <= dump.limit(); start++) {
            int at = 0;
            while (at < SECRET && dump.get(start + at) == octet(secret, at)) {
                at++;
            }
            found += at == SECRET ? 1 : 0;
        }
        return found;
    }
}
