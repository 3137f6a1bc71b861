"""Public keys of RSA that are sound as public keys, and whose BIT STRINGs carry anything: an RSAPublicKey in DER and in
any layout that BER allows, one with a rule broken or with damage, other octets, and bits that are no octets."""
from tests.oracle.made_documents import BIT_STRING, INTEGER, RSA_ENCRYPTION, SEQUENCE, Maker, Node
from tests.oracle.public_keys import RSASSA_PSS

# How probable departures from the layout of DER, mistakes in values and mistakes in the layout are.
SOUND = (0, 0, 0)
CHANCES = [SOUND, SOUND, SOUND, (0.3, 0, 0), (0.05, 0, 0), (0, 0.1, 0), (0, 0, 0.05), (0.3, 0.05, 0.02)]
# Contents of INTEGERs on both sides of what is shown as a number, and on both sides of an octet more.
NUMBERS = """00 01 03 0f 10 12 7f 0080 00ff 0100 010001 7fff 008000 7fffff 00800000 7fffffff 0080000000 0100000001
00ffffffff ff 80 ff7f 80000000 ff7fffffff 8000000000 7fffffffffffffff 008000000000000000""".split()
OTHERS = [b"", b"ssh-rsa AAAA", b"\0", b"0\n", bytes(20), b"0\x84\x7f\xff\xff\xf0", b"0\4\2\x84\x7f\xff\xff\xff"]


class PublicKeyMaker(Maker):
    """Makes documents whose public keys are of RSA as often as not."""

    def number_of_rsa(self):
        if self.random.random() < 0.3:
            return Node(INTEGER, bytes.fromhex(self.one_of(*NUMBERS)))
        if self.random.random() < 0.3:
            return self.integer()
        number = self.random.getrandbits(self.one_of(24, 33, 63, 64, 255, 256, 257, 511, 512, 1024, 2048))
        return Node(INTEGER, number.to_bytes(number.bit_length() // 8 + 1, "big"))

    def exponent(self):
        return Node(INTEGER, b"\1\0\1") if self.random.random() < 0.4 else self.number_of_rsa()

    def rsa_public_key(self):
        return Node(SEQUENCE, [self.number_of_rsa(), self.exponent()])

    def octets_of_rsa(self):
        """What the BIT STRING of a key holds, sound or not."""
        inside = PublicKeyMaker(self.random, *self.random.choice(CHANCES))
        octets = inside.laid_out(inside.rsa_public_key())
        if self.random.random() < 0.1:
            wrapped = inside.laid_out(inside.one_of(inside.string(octets), inside.bits(octets), inside.any()))
            return self.random.choice([*OTHERS, self.random.randbytes(self.random.randint(1, 30)), wrapped])
        for _ in range(self.random.choice([0, 0, 0, 1, 2])):
            octets = inside.changed(octets)
        return octets

    def public_key(self):
        if self.random.random() < 0.5:
            return super().public_key()
        octets = self.octets_of_rsa()
        unused = self.random.randint(1, 7) if octets and self.random.random() < 0.06 else 0
        parameters = self.one_of([self.null()], [self.null()], [], [self.any()])
        algorithm = self.random.choice([RSA_ENCRYPTION, RSA_ENCRYPTION, RSASSA_PSS.hex()])
        return Node(SEQUENCE, [self.algorithm(algorithm, *parameters), Node(BIT_STRING, octets, True, unused)])
