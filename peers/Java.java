/* Java's own readers, by key factories and EncryptedPrivateKeyInfo. (run.py says what a driver answers) */
import java.security.KeyFactory;
import java.security.spec.PKCS8EncodedKeySpec;
import java.security.spec.X509EncodedKeySpec;
import java.util.HexFormat;
import java.util.Scanner;
import javax.crypto.EncryptedPrivateKeyInfo;

class Java {
    static final String[] ALGORITHMS = {"RSA", "EC", "EdDSA", "XDH", "DSA", "RSASSA-PSS"};

    /** Reads a document of a kind, by the factory that takes it, and writes it anew. */
    static byte[] rewritten(String kind, byte[] document) throws Exception {
        if (kind.equals("encrypted")) {
            return new EncryptedPrivateKeyInfo(document).getEncoded();
        }
        Exception refused = null;
        for (String name : ALGORITHMS) {
            try {
                KeyFactory factory = KeyFactory.getInstance(name);
                return kind.equals("key") ? factory.generatePrivate(new PKCS8EncodedKeySpec(document)).getEncoded()
                                          : factory.generatePublic(new X509EncodedKeySpec(document)).getEncoded();
            } catch (Exception why) {
                refused = why;
            }
        }
        throw refused;
    }

    public static void main(String[] words) {
        System.out.printf("{\"name\": \"Java's own\", \"version\": \"%s\", \"call\": \"%s\", \"kinds\": [%s]}%n",
            Runtime.version(), "KeyFactory, EncryptedPrivateKeyInfo, getEncoded", "\"key\", \"public\", \"encrypted\"");
        Scanner lines = new Scanner(System.in);
        while (lines.hasNextLine()) {
            String[] parts = lines.nextLine().split(" ");
            try {
                byte[] document = HexFormat.of().parseHex(parts[1].replace("-", ""));
                System.out.println("+" + HexFormat.of().formatHex(rewritten(parts[0], document)));
            } catch (Exception refused) {
                System.out.println("-");
            }
        }
    }
}
