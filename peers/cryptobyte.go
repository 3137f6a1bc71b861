// Go's cryptobyte, by its calls for the fields of a type, one after the other. (run.py says what a driver answers)
package main

import (
	"encoding/asn1"

	. "golang.org/x/crypto/cryptobyte"
	. "golang.org/x/crypto/cryptobyte/asn1"
)

const about = `{"name": "Go's cryptobyte", "version": "%s", "call": "ReadASN1.. of String, field by field", ` +
	`"kinds": ["key", "ec", "public", "encrypted"], "inside": false}`

func name(in *String) bool { return in.ReadASN1ObjectIdentifier(new(asn1.ObjectIdentifier)) }
func bits(in *String) bool { return in.ReadASN1BitString(new(asn1.BitString)) }
func open(in *String) bool { return in.ReadAnyASN1(new(String), new(Tag)) }

func algorithm(in *String) bool {
	var it String
	return in.ReadASN1(&it, SEQUENCE) && name(&it) && (it.Empty() || open(&it)) && it.Empty()
}

func attributes(in *String) bool {
	var it, values String
	found := true
	for found && !in.Empty() {
		found = in.ReadASN1(&it, SEQUENCE) && name(&it) && it.ReadASN1(&values, SET) && it.Empty()
		for found && !values.Empty() {
			found = open(&values)
		}
	}
	return found
}

func optional(in *String, tag Tag, field func(*String) bool) bool {
	var it String
	var isThere bool
	return in.ReadOptionalASN1(&it, &isThere, tag) && (!isThere || field(&it) && it.Empty())
}

// A BIT STRING whose tag is that of its field.
func tagged(in *String) bool {
	(*in)[0] = byte(BIT_STRING)
	return bits(in)
}

func rewritten(kind string, document []byte) ([]byte, error) {
	var in String
	all, zero, one := String(document), Tag(0).ContextSpecific().Constructed(), Tag(1).ContextSpecific()
	found := all.ReadASN1(&in, SEQUENCE) && all.Empty()
	switch kind {
	case "key":
		found = found && in.ReadASN1Integer(new(uint8)) && algorithm(&in) && in.SkipASN1(OCTET_STRING) &&
			optional(&in, zero, attributes) && (!in.PeekASN1Tag(one) || tagged(&in))
	case "ec":
		found = found && in.ReadASN1Integer(new(uint8)) && in.SkipASN1(OCTET_STRING) &&
			optional(&in, zero, name) && optional(&in, one.Constructed(), bits)
	case "public":
		found = found && algorithm(&in) && bits(&in)
	case "encrypted":
		found = found && algorithm(&in) && in.SkipASN1(OCTET_STRING)
	}
	return answer(found && in.Empty())
}
