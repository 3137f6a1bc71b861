// go.go: the forms that users of Go's crypto/x509 have.
package main

import (
	"crypto"
	"crypto/ecdsa"
	"crypto/ed25519"
	"crypto/elliptic"
	"crypto/rand"
	"crypto/rsa"
	"crypto/x509"
	"crypto/x509/pkix"
	"encoding/asn1"
	"encoding/pem"
	"fmt"
	"net"
	"os"
)

func keep(want, name, label string, octets []byte) {
	block := pem.EncodeToMemory(&pem.Block{Type: label, Bytes: octets})
	for end, each := range map[string][]byte{"pem": block, "der": octets} {
		must(os.WriteFile(fmt.Sprintf("%s-%s.%s", want, name, end), each, 0o600))
	}
}

func must(err error) {
	if err != nil {
		panic(err)
	}
}

func keys() map[string]crypto.Signer {
	found := map[string]crypto.Signer{}
	key, err := rsa.GenerateKey(rand.Reader, 2048)
	must(err)
	found["rsa"] = key
	for name, curve := range map[string]elliptic.Curve{"p224": elliptic.P224(), "p256": elliptic.P256(),
		"p384": elliptic.P384(), "p521": elliptic.P521()} {
		for number := 1; number <= 2; number++ {
			key, err := ecdsa.GenerateKey(curve, rand.Reader)
			must(err)
			found[fmt.Sprintf("%s-%d", name, number)] = key
		}
	}
	_, curve, err := ed25519.GenerateKey(rand.Reader)
	must(err)
	found["ed25519"] = curve
	return found
}

func private(name string, key crypto.Signer) {
	octets, err := x509.MarshalPKCS8PrivateKey(key)
	must(err)
	keep("private", name, "PRIVATE KEY", octets)
	octets, err = x509.MarshalPKIXPublicKey(key.Public())
	must(err)
	keep("public", name, "PUBLIC KEY", octets)
	switch key := key.(type) {
	case *ecdsa.PrivateKey:
		octets, err = x509.MarshalECPrivateKey(key)
		must(err)
		keep("private", name+"-sec1", "EC PRIVATE KEY", octets)
	case *rsa.PrivateKey:
		keep("private", name+"-pkcs1", "RSA PRIVATE KEY", x509.MarshalPKCS1PrivateKey(key))
		keep("public", name+"-pkcs1", "RSA PUBLIC KEY", x509.MarshalPKCS1PublicKey(&key.PublicKey))
		block, err := x509.EncryptPEMBlock(rand.Reader, "RSA PRIVATE KEY", x509.MarshalPKCS1PrivateKey(key),
			[]byte("secret"), x509.PEMCipherAES256)
		must(err)
		must(os.WriteFile("encrypted-"+name+".pem", pem.EncodeToMemory(block), 0o600))
	}
}

func requests(name string, key crypto.Signer) {
	plain := x509.CertificateRequest{Subject: pkix.Name{CommonName: "www.example.org", Organization: []string{"Example"}}}
	asking := plain
	asking.DNSNames = []string{"www.example.org"}
	asking.IPAddresses = []net.IP{net.ParseIP("192.0.2.1")}
	both := asking
	both.Attributes = []pkix.AttributeTypeAndValueSET{{Type: asn1.ObjectIdentifier{1, 2, 840, 113549, 1, 9, 7},
		Value: [][]pkix.AttributeTypeAndValue{{{Type: asn1.ObjectIdentifier{2, 5, 4, 3}, Value: "secret"}}}}}
	for what, template := range map[string]x509.CertificateRequest{"plain": plain, "san": asking, "attributes": both} {
		octets, err := x509.CreateCertificateRequest(rand.Reader, &template, key)
		must(err)
		keep("request", name+"-"+what, "CERTIFICATE REQUEST", octets)
	}
}

func main() {
	for name, key := range keys() {
		private(name, key)
		requests(name, key)
	}
}
