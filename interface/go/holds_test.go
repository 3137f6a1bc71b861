package pkder

import (
	"encoding/hex"
	"errors"
	"fmt"
	"testing"
)

// heldWords is what a document holds, in words.
func heldWords(held Held, err error) string {
	key := "no key"
	if held.Key != nil {
		key = fmt.Sprint(*held.Key)
	}
	return fmt.Sprint(key, "; ", held.Curve, "; ", held.Algorithms, "; ", held.Numbers, "; ", err)
}

// What documents hold, as `openssl asn1parse` shows it.
func TestHolds(t *testing.T) {
	for _, row := range []struct {
		name string
		kind Kind
		due  string
	}{
		{"rsa2048", Key, "{rsaEncryption  0  2048 65537}; ; []; []; <nil>"},
		{"p384", Key, "{id-ecPublicKey P-384 0  0 }; ; []; []; <nil>"},
		{"public-rsa2048", Public, "{rsaEncryption  270 der 2048 65537}; ; []; []; <nil>"},
		{"public-indefinite", Public, "{Ed25519  0  0 }; ; []; []; <nil>"},
		{"k256-sec1", EC, "no key; secp256k1; []; []; <nil>"},
		{"encrypted-keytool", Encrypted, "no key; ; [id-PBES2 id-PBKDF2 id-hmacWithSHA256 aes256-CBC-PAD]; " +
			"[10000 32]; <nil>"},
	} {
		held, err := Holds(row.kind, Usual(), requestOf(t, "examples/"+row.name))
		if found := heldWords(held, err); found != row.due {
			t.Error(row.name, found)
		}
	}
}

// Public keys of RSA by the contents of their BIT STRINGs (X.690 8.3).
func TestHeldKeysOfRSA(t *testing.T) {
	for contents, due := range map[string]string{
		"003006020121020103":               "{rsaEncryption  8 der 6 3}",
		"0030090202ff7f0203010001":         "{rsaEncryption  11 der 0 65537}",
		"00300d0206008000000000020300ffff": "{rsaEncryption  15 der 40 65535}",
		"00300b02020101020500ffffffff":     "{rsaEncryption  13 der 9 0x00ffffffff}",
		"0030060201210201ff":               "{rsaEncryption  8 der 6 0xff}",
		"00308106020121020103":             "{rsaEncryption  9 not_der 0 }",
		"003003020121":                     "{rsaEncryption  5 refused 0 }",
		"013006020121020102":               "{rsaEncryption  8 refused 0 }",
	} {
		octets, err := hex.DecodeString(contents)
		if err != nil {
			t.Fatal(err)
		}
		algorithm := "\x30\x0d\x06\x09\x2a\x86\x48\x86\xf7\x0d\x01\x01\x01\x05\x00"
		key := append([]byte(algorithm), append([]byte{3, byte(len(octets))}, octets...)...)
		held, err := Holds(Public, Usual(), append([]byte{0x30, byte(len(key))}, key...))
		if err != nil || held.Key == nil || fmt.Sprint(*held.Key) != due {
			t.Error(contents, heldWords(held, err))
		}
	}
}

// Documents that are refused, kinds of which nothing is told, and reports of another library.
func TestRefusedHolds(t *testing.T) {
	var fault *Fault
	if _, err := Holds(Key, Usual(), nil); !errors.As(err, &fault) {
		t.Error(err)
	}
	for _, kind := range []Kind{Request, Package, 0, 7} {
		if _, err := Holds(kind, Usual(), nil); err != ErrCall {
			t.Error(kind, err)
		}
	}
	for _, text := range []string{"", "{}", `{"holds":1}`, `{"holds":{"encryption":{"numbers":["x"]}}}`} {
		if _, err := heldOf(text); err == nil {
			t.Error(text)
		}
	}
}
