// Forms.java java | bouncycastle: the forms that users of Java's own providers and of BouncyCastle have.
import java.io.FileWriter;
import java.math.BigInteger;
import java.nio.file.Files;
import java.nio.file.Path;
import java.security.KeyFactory;
import java.security.KeyPair;
import java.security.KeyPairGenerator;
import java.security.KeyStore;
import java.security.Security;
import java.security.cert.X509Certificate;
import java.security.interfaces.ECPrivateKey;
import java.security.spec.ECGenParameterSpec;
import java.security.spec.ECPrivateKeySpec;
import java.util.Date;
import java.util.LinkedHashMap;
import java.util.Map;
import org.bouncycastle.asn1.DERPrintableString;
import org.bouncycastle.asn1.pkcs.PKCSObjectIdentifiers;
import org.bouncycastle.asn1.x500.X500Name;
import org.bouncycastle.asn1.x509.Extension;
import org.bouncycastle.asn1.x509.ExtensionsGenerator;
import org.bouncycastle.asn1.x509.GeneralName;
import org.bouncycastle.asn1.x509.GeneralNames;
import org.bouncycastle.cert.jcajce.JcaX509CertificateConverter;
import org.bouncycastle.cert.jcajce.JcaX509v3CertificateBuilder;
import org.bouncycastle.jce.provider.BouncyCastleProvider;
import org.bouncycastle.openssl.PKCS8Generator;
import org.bouncycastle.openssl.jcajce.JcaMiscPEMGenerator;
import org.bouncycastle.openssl.jcajce.JcaPEMWriter;
import org.bouncycastle.openssl.jcajce.JcaPKCS8Generator;
import org.bouncycastle.openssl.jcajce.JceOpenSSLPKCS8EncryptorBuilder;
import org.bouncycastle.openssl.jcajce.JcePEMEncryptorBuilder;
import org.bouncycastle.operator.jcajce.JcaContentSignerBuilder;
import org.bouncycastle.pkcs.PKCS10CertificationRequest;
import org.bouncycastle.pkcs.PKCS10CertificationRequestBuilder;
import org.bouncycastle.pkcs.jcajce.JcaPKCS10CertificationRequestBuilder;

class Forms {
    static final char[] WORD = "secret".toCharArray();

    static void keep(String name, byte[] octets) throws Exception {
        Files.write(Path.of(name), octets);
    }

    static KeyPair pair(String algorithm, Object size, String provider) throws Exception {
        KeyPairGenerator found = provider == null ? KeyPairGenerator.getInstance(algorithm)
                                                  : KeyPairGenerator.getInstance(algorithm, provider);
        if (size instanceof String) {
            found.initialize(new ECGenParameterSpec((String) size));
        } else if (size != null) {
            found.initialize((Integer) size);
        }
        return found.generateKeyPair();
    }

    static Map<String, KeyPair> pairs(String provider) throws Exception {
        Map<String, KeyPair> found = new LinkedHashMap<>();
        found.put("rsa", pair("RSA", 2048, provider));
        found.put("dsa", pair("DSA", 1024, provider));
        for (String curve : new String[] {"secp256r1", "secp384r1", "secp521r1"}) {
            for (int number = 1; number <= 2; number++) {
                found.put(curve + "-" + number, pair("EC", curve, provider));
            }
        }
        for (String name : new String[] {"Ed25519", "Ed448", "X25519", "X448"}) {
            found.put(name, pair(name, null, provider));
        }
        return found;
    }

    static void plain(String provider) throws Exception {
        for (Map.Entry<String, KeyPair> each : pairs(provider).entrySet()) {
            keep("private-" + each.getKey() + ".der", each.getValue().getPrivate().getEncoded());
            keep("public-" + each.getKey() + ".der", each.getValue().getPublic().getEncoded());
            if (each.getValue().getPrivate() instanceof ECPrivateKey) {
                ECPrivateKey key = (ECPrivateKey) each.getValue().getPrivate();
                KeyFactory factory =
                    provider == null ? KeyFactory.getInstance("EC") : KeyFactory.getInstance("EC", provider);
                ECPrivateKeySpec spec = new ECPrivateKeySpec(key.getS(), key.getParams());
                keep("private-number-" + each.getKey() + ".der", factory.generatePrivate(spec).getEncoded());
            }
        }
    }

    static void pem(String name, Object value) throws Exception {
        try (JcaPEMWriter writer = new JcaPEMWriter(new FileWriter(name))) {
            writer.writeObject(value);
        }
    }

    static String digest(String name) {
        return name.startsWith("rsa") ? "SHA256withRSA"
            : name.startsWith("dsa")  ? "SHA256withDSA"
            : name.startsWith("sec")  ? "SHA256withECDSA"
                                      : name;
    }

    static void requests(String name, KeyPair pair) throws Exception {
        GeneralNames names = new GeneralNames(new GeneralName(GeneralName.dNSName, "www.example.org"));
        ExtensionsGenerator asked = new ExtensionsGenerator();
        asked.addExtension(Extension.subjectAlternativeName, false, names);
        for (int what = 0; what < 3; what++) {
            PKCS10CertificationRequestBuilder made =
                new JcaPKCS10CertificationRequestBuilder(new X500Name("CN=www.example.org"), pair.getPublic());
            if (what > 0) {
                made.addAttribute(PKCSObjectIdentifiers.pkcs_9_at_extensionRequest, asked.generate());
            }
            if (what > 1) {
                made.addAttribute(PKCSObjectIdentifiers.pkcs_9_at_challengePassword, new DERPrintableString("secret"));
            }
            if (what == 0) {
                made.setLeaveOffEmptyAttributes(false);
            }
            PKCS10CertificationRequest request =
                made.build(new JcaContentSignerBuilder(digest(name)).build(pair.getPrivate()));
            keep("request-" + name + "-" + what + ".der", request.getEncoded());
            pem("request-" + name + "-" + what + ".pem", request);
        }
    }

    static void store(String name, KeyPair pair) throws Exception {
        X500Name subject = new X500Name("CN=" + name);
        Date now = new Date();
        X509Certificate certificate = new JcaX509CertificateConverter().getCertificate(
            new JcaX509v3CertificateBuilder(
                subject, BigInteger.ONE, now, new Date(now.getTime() + 86400000L), subject, pair.getPublic())
                .build(new JcaContentSignerBuilder(digest(name)).build(pair.getPrivate())));
        for (String type : new String[] {"PKCS12", "BCFKS"}) {
            KeyStore store = KeyStore.getInstance(type, "BC");
            store.load(null, WORD);
            store.setKeyEntry(name, pair.getPrivate(), WORD, new X509Certificate[] {certificate});
            try (java.io.OutputStream out = Files.newOutputStream(Path.of("private-" + name + "." + type))) {
                store.store(out, WORD);
            }
        }
    }

    static void bouncycastle() throws Exception {
        Security.addProvider(new BouncyCastleProvider());
        plain("BC");
        for (Map.Entry<String, KeyPair> each : pairs("BC").entrySet()) {
            String name = each.getKey();
            KeyPair pair = each.getValue();
            pem("private-" + name + ".pem", pair.getPrivate());
            pem("private-" + name + "-p8.pem", new JcaPKCS8Generator(pair.getPrivate(), null));
            pem("encrypted-" + name + "-p8.pem",
                new JcaPKCS8Generator(pair.getPrivate(),
                    new JceOpenSSLPKCS8EncryptorBuilder(PKCS8Generator.AES_256_CBC).setPassword(WORD).build()));
            pem("public-" + name + ".pem", pair.getPublic());
            if (name.startsWith("X")) {
                continue;
            }
            if (!name.startsWith("Ed")) {
                pem("encrypted-" + name + ".pem",
                    new JcaMiscPEMGenerator(pair.getPrivate(), new JcePEMEncryptorBuilder("AES-256-CBC").build(WORD)));
            }
            requests(name, pair);
            if (!name.contains("-") || name.endsWith("-1")) {
                store(name, pair);
            }
        }
    }

    public static void main(String[] words) throws Exception {
        if (words[0].equals("java")) {
            plain(null);
        } else {
            bouncycastle();
        }
    }
}
