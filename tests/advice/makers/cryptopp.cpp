// cryptopp.cpp: the forms that users of Crypto++ have.
#include <cryptopp/dsa.h>
#include <cryptopp/eccrypto.h>
#include <cryptopp/files.h>
#include <cryptopp/oids.h>
#include <cryptopp/osrng.h>
#include <cryptopp/rsa.h>
#include <cryptopp/xed25519.h>
#include <string>

using namespace CryptoPP;

template <class Key> static void keep(const std::string &name, const Key &key) {
    FileSink file(name.c_str());
    key.Save(file);
}

static void of_curve(const std::string &name, const OID &curve, RandomNumberGenerator &chance) {
    for (int number = 1; number <= 2; number++) {
        ECDSA<ECP, SHA256>::PrivateKey key;
        key.Initialize(chance, curve);
        ECDSA<ECP, SHA256>::PublicKey other;
        key.MakePublicKey(other);
        const std::string end = name + "-" + std::to_string(number);
        keep("private-" + end + "-explicit.der", key);
        keep("public-" + end + "-explicit.der", other);
        key.AccessGroupParameters().SetEncodeAsOID(true);
        other.AccessGroupParameters().SetEncodeAsOID(true);
        keep("private-" + end + ".der", key);
        keep("public-" + end + ".der", other);
        other.AccessGroupParameters().SetPointCompression(true);
        keep("public-" + end + "-compressed.der", other);
    }
}

int main() {
    AutoSeededRandomPool chance;
    RSA::PrivateKey rsa;
    rsa.GenerateRandomWithKeySize(chance, 2048);
    keep("private-rsa.der", rsa);
    keep("public-rsa.der", RSA::PublicKey(rsa));
    FileSink old("private-rsa-pkcs1.der");
    rsa.DEREncodePrivateKey(old);
    old.MessageEnd();
    DSA::PrivateKey dsa;
    dsa.GenerateRandomWithKeySize(chance, 1024);
    DSA::PublicKey other;
    dsa.MakePublicKey(other);
    keep("private-dsa.der", dsa);
    keep("public-dsa.der", other);
    of_curve("p256", ASN1::secp256r1(), chance);
    of_curve("p384", ASN1::secp384r1(), chance);
    of_curve("p521", ASN1::secp521r1(), chance);
    of_curve("k256", ASN1::secp256k1(), chance);
    ed25519PrivateKey signing;
    signing.GenerateRandom(chance, g_nullNameValuePairs);
    keep("private-ed25519.der", signing);
    ed25519PublicKey verifying;
    signing.MakePublicKey(verifying);
    keep("public-ed25519.der", verifying);
    x25519 agreeing(chance);
    keep("private-x25519.der", agreeing);
    return 0;
}
