/* BouncyCastle, by the classes of its types, which write themselves in DER. (run.py says what a driver answers) */
import java.util.HexFormat;
import java.util.Scanner;
import org.bouncycastle.asn1.ASN1Encoding;
import org.bouncycastle.asn1.ASN1Object;
import org.bouncycastle.asn1.pkcs.EncryptedPrivateKeyInfo;
import org.bouncycastle.asn1.pkcs.PrivateKeyInfo;
import org.bouncycastle.asn1.sec.ECPrivateKey;
import org.bouncycastle.asn1.x509.SubjectPublicKeyInfo;
import org.bouncycastle.crypto.util.PrivateKeyFactory;
import org.bouncycastle.crypto.util.PublicKeyFactory;
import org.bouncycastle.jce.provider.BouncyCastleProvider;
import org.bouncycastle.pkcs.PKCS10CertificationRequest;

class BouncyCastle {
    /** Reads a document of a kind; keys have to be such that its crypto takes them. */
    static ASN1Object read(String kind, byte[] document) throws Exception {
        switch (kind) {
            case "key":
                PrivateKeyFactory.createKey(document);
                return PrivateKeyInfo.getInstance(document);
            case "ec":
                return ECPrivateKey.getInstance(document);
            case "public":
                PublicKeyFactory.createKey(document);
                return SubjectPublicKeyInfo.getInstance(document);
            case "encrypted":
                return EncryptedPrivateKeyInfo.getInstance(document);
            default:
                return new PKCS10CertificationRequest(document).toASN1Structure();
        }
    }

    public static void main(String[] words) {
        System.out.printf("{\"name\": \"BouncyCastle\", \"version\": \"%s\", \"call\": \"%s\", \"kinds\": [%s]}%n",
            new BouncyCastleProvider().getVersionStr(),
            "PrivateKeyFactory, PublicKeyFactory, PKCS10CertificationRequest, getEncoded",
            "\"key\", \"ec\", \"request\", \"public\", \"encrypted\"");
        Scanner lines = new Scanner(System.in);
        while (lines.hasNextLine()) {
            String[] parts = lines.nextLine().split(" ");
            try {
                byte[] document = HexFormat.of().parseHex(parts[1].replace("-", ""));
                byte[] written = read(parts[0], document).getEncoded(ASN1Encoding.DER);
                System.out.println("+" + HexFormat.of().formatHex(written));
            } catch (Exception refused) {
                System.out.println("-");
            }
        }
    }
}
