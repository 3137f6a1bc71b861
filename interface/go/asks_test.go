package pkder

import (
	"encoding/json"
	"errors"
	"fmt"
	"os"
	"path/filepath"
	"strings"
	"testing"
)

// requestOf are the octets of a request of the repository, in which PKDER_HEADER names a file of interface/.
func requestOf(t *testing.T, name string) []byte {
	top := filepath.Dir(filepath.Dir(os.Getenv("PKDER_HEADER")))
	octets, err := os.ReadFile(filepath.Join(top, name+".der"))
	if err != nil {
		t.Fatal(err)
	}
	return octets
}

// asksOf is what a request of the repository asks for.
func asksOf(t *testing.T, name string) Asked {
	asked, err := Asks(Usual(), requestOf(t, name))
	if err != nil {
		t.Fatal(name, err)
	}
	return asked
}

// fact is what is told, or that it can't be.
func fact(told interface{}, err error) string {
	switch {
	case err == ErrUntold:
		return "untold"
	case err != nil:
		return err.Error()
	}
	return fmt.Sprint(told)
}

// facts are the names, the DNS names, the usages, the purposes, and whether it asks for a CA.
func facts(asked Asked) string {
	names, err := asked.SAN()
	san := []string{}
	for _, it := range names {
		san = append(san, it.Kind+":"+it.Text)
	}
	return strings.Join([]string{
		fact(san, err), fact(asked.DNS()), fact(asked.KeyUsage()), fact(asked.ExtendedKeyUsage()), fact(asked.IsCA()),
	}, "; ")
}

// subject are the attributes of the subject by their names and characters.
func subject(asked Asked) string {
	found := []string{}
	for _, relative := range asked.Subject {
		for _, it := range relative {
			text := "no text"
			if it.Text != nil {
				text = *it.Text
			}
			found = append(found, it.Name+"="+text)
		}
	}
	return strings.Join(found, ", ")
}

// What requests ask for, as `openssl req -text` and `openssl asn1parse` show it.
func TestAsks(t *testing.T) {
	explained := "tests/pkder/explained/"
	twoNames := "[dns:www.example.com dns:example.com]; [www.example.com example.com]; "
	for _, row := range [][]string{
		{explained + "extensions-sound", "commonName=www.example.org", "[dns:www.example.org ip:192.0.2.17]; " +
			"[www.example.org]; [digitalSignature keyEncipherment]; [id-kp-serverAuth]; false"},
		{"examples/request-p256", "countryName=US, organizationName=Example, commonName=www.example.com",
			twoNames + "[]; []; false"},
		{"examples/request-rsa2048", "countryName=US, organizationName=Example, commonName=rsa.example.com",
			"[]; []; []; []; false"},
		// (its strings are in segments, and the value of the subjectAltName, too)
		{"examples/request-indefinite", "countryName=no text, organizationName=no text, commonName=no text",
			twoNames + "[]; []; false"},
		{explained + "critical-false", "countryName=DE, organizationName=Müller und Söhne GmbH, " +
			"commonName=www.example.com", twoNames + "[digitalSignature]; []; false"},
		{explained + "note-extension-length", "commonName=www.example.org", "untold; untold; []; []; false"},
		{explained + "note-extension-text", "commonName=www.example.org", "untold; untold; []; []; false"},
		{explained + "note-extension-empty", "commonName=www.example.org", "[]; []; []; untold; false"},
		{explained + "note-extension-true", "commonName=www.example.org", "[]; []; []; []; untold"},
		{explained + "note-extension-false", "commonName=www.example.org", "[]; []; []; []; untold"},
		{explained + "note-extension-twice", "commonName=a.example", "[dns:a.example]; [a.example]; untold; []; false"},
	} {
		asked := asksOf(t, row[0])
		if subject(asked) != row[1] || facts(asked) != row[2] {
			t.Errorf("%s: %s: %s", row[0], subject(asked), facts(asked))
		}
	}
}

// The algorithms of a key and a signature.
func TestAskedKeys(t *testing.T) {
	for name, due := range map[string]string{
		"tests/pkder/explained/extensions-sound": "{Ed25519  32  0 } {Ed25519 }",
		"examples/request-p256":                  "{id-ecPublicKey P-256 65  0 } {ecdsa-with-SHA256 }",
		"examples/request-rsa2048":               "{rsaEncryption  270 der 2048 65537} {sha256WithRSAEncryption }",
		"examples/request-indefinite":            "{id-ecPublicKey P-256 0  0 } {ecdsa-with-SHA256 }",
	} {
		asked := asksOf(t, name)
		if found := fmt.Sprint(asked.Key, " ", asked.Signature); found != due {
			t.Error(name, found)
		}
	}
}

// The extensions of a request, and attributes by their names alone.
func TestAskedExtensions(t *testing.T) {
	asked := asksOf(t, "tests/pkder/explained/extensions-sound")
	found := []string{}
	for _, it := range asked.Extensions {
		found = append(found, fmt.Sprint(it.Identifier, " ", it.Name, " ", it.Critical, " ", it.At, " ", it.Verdict))
	}
	due := "2.5.29.17 subjectAltName false 101 der; 2.5.29.15 keyUsage true 135 der; " +
		"2.5.29.37 extKeyUsage false 151 der; 2.5.29.19 basicConstraints true 172 der"
	if strings.Join(found, "; ") != due || len(asked.Attributes) != 0 {
		t.Error(found, asked.Attributes)
	}
	asked = asksOf(t, "tests/pkder/explained/critical-false")
	text, err := json.Marshal(asked)
	if err != nil || strings.Contains(string(text), "secret") || !strings.Contains(string(text), "example.com") {
		t.Error(string(text), err)
	}
	if strings.Join(asked.Attributes, ", ") != "challengePassword" {
		t.Error(asked.Attributes)
	}
}

// A request for a CA.
func TestAskedCA(t *testing.T) {
	// (its TRUE is another octet than FF)
	request := requestOf(t, "tests/pkder/explained/note-extension-true")
	inDER := strings.Replace(string(request), "\x30\x03\x01\x01\x01", "\x30\x03\x01\x01\xff", 1)
	asked, err := Asks(Usual(), []byte(inDER))
	if err != nil || facts(asked) != "[]; []; []; []; true" {
		t.Error(facts(asked), err)
	}
}

// Requests that are refused, and calls that are wrong.
func TestRefusedRequests(t *testing.T) {
	whole := requestOf(t, "examples/request-p256")
	for _, request := range [][]byte{nil, whole[:len(whole)-1], requestOf(t, "examples/public-p256")} {
		var fault *Fault
		if _, err := Asks(Usual(), request); !errors.As(err, &fault) {
			t.Error(request, err)
		}
	}
	_, err := Asks(Usual(), requestOf(t, "examples/request-followed"))
	if err == nil || err.Error() != "fault at 148: Trailing" {
		t.Error(err)
	}
	if _, err := Asks(Limits{Depth: 65, Octets: 9}, nil); err != ErrCall {
		t.Error(err)
	}
}

// Reports by their text: names of other kinds, values that are no strings, types that aren't known, and reports of
// another library.
func TestAskedText(t *testing.T) {
	asked, err := askedOf(`{"asks":{"subject":[[{"identifier":"1.2.3","value":{"integer":5}}]],` +
		`"key":{"algorithm":"1.2.4"},"signature":{"algorithm":"1.2.5"},"attributes":["1.2.6"],"extensions":[` +
		`{"identifier":"2.5.29.17","name":"subjectAltName","critical":true,"at":9,"carries":{"verdict":"der"},` +
		`"names":[{"field":"type","value":{"identifier":"2.5.4.3","name":"commonName"}},{"field":"value","text":"x"},` +
		`{"dns":""},{"email":"a@b"},{"uri":"u:"},{"oid":"1.2"}]},` +
		`{"identifier":"2.5.29.37","name":"extKeyUsage","critical":true,"at":9,"carries":{"verdict":"der"},` +
		`"values":[{"value":{"identifier":"1.2.8"}}]},` +
		`{"identifier":"1.2.7","critical":true,"at":9,"values":[]}]}}`)
	if err != nil || len(asked.Subject) != 1 || len(asked.Extensions) != 3 {
		t.Fatal(asked, err)
	}
	if due := "[other:commonName other:x dns: email:a@b uri:u: oid:1.2]; []; []; [1.2.8]; false"; facts(asked) != due {
		t.Error(facts(asked))
	}
	attribute := asked.Subject[0][0]
	if attribute.Text != nil || attribute.Value == nil || *attribute.Value.Integer != 5 {
		t.Error(attribute)
	}
	if last := asked.Extensions[2]; last.Name != "" || last.Verdict != "" || !last.Critical || last.At != 9 {
		t.Error(last)
	}
	for _, text := range []string{"", "{}", `{"asks":{"subject":1}}`} {
		if _, err := askedOf(text); err == nil {
			t.Error(text)
		}
	}
}
