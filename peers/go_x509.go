// Go's crypto/x509, by its parsers, and the functions that write what they give. (run.py says what a driver answers)
package main

import "crypto/x509"

const about = `{"name": "Go crypto/x509", "version": "%s", "call": "ParsePKCS8PrivateKey and the like, Marshal..", ` +
	`"kinds": ["key", "ec", "request", "public"]}`

// Reads a document of a kind, and writes it anew; of a request nothing is written.
func rewritten(kind string, document []byte) ([]byte, error) {
	switch kind {
	case "key":
		key, err := x509.ParsePKCS8PrivateKey(document)
		if err != nil {
			return nil, err
		}
		return x509.MarshalPKCS8PrivateKey(key)
	case "ec":
		key, err := x509.ParseECPrivateKey(document)
		if err != nil {
			return nil, err
		}
		return x509.MarshalECPrivateKey(key)
	case "public":
		key, err := x509.ParsePKIXPublicKey(document)
		if err != nil {
			return nil, err
		}
		return x509.MarshalPKIXPublicKey(key)
	}
	_, err := x509.ParseCertificateRequest(document)
	return nil, err
}
