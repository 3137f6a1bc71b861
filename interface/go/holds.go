package pkder

import (
	"encoding/json"
	"errors"
	"fmt"
	"strconv"
)

// HeldKey is a key by its algorithm: the usual name of that, else its arcs, and so what its parameters name, as a
// curve, empty where they name nothing. Octets is how many a public key has, and 0 of one in segments (BER). Of a
// public key of RSA Verdict is what it is as an RSAPublicKey, "der", "not_der" or "refused", and of one in DER Bits is
// how many its modulus has, 0 where that is negative, and Exponent is that in decimal digits, from 1<<31 on, and below
// 0, by its first octets in hexadecimal ones, as "0x0100000001". A private key of RSA has Bits, and Exponent below
// 1<<31, alone. Of any other key these are empty and 0.
type HeldKey struct {
	Algorithm  string
	Parameters string
	Octets     uint64
	Verdict    string
	Bits       uint64
	Exponent   string
}

// Held is what a document holds: of the kinds Key and Public its Key, nil of others; of the kind EC its Curve by the
// usual name, else by its arcs, empty where it names none; and of the kind Encrypted Algorithms, what its algorithm and
// the parameters of that name, and Numbers, those below 1<<31 in the parameters, as how often a password is hashed.
type Held struct {
	Key        *HeldKey
	Curve      string
	Algorithms []string
	Numbers    []uint64
}

// Holds answers what a document of the kind Key, EC, Public or Encrypted holds, by the report that Explain makes of it;
// of another kind ErrCall. The error of a document that is refused is its *Fault; one in BER isn't refused.
func Holds(kind Kind, limits Limits, document []byte) (Held, error) {
	if kind == Request || kind == Package {
		return Held{}, ErrCall
	}
	report, err := Explain(kind, limits, document, ReportForm{JSON: true})
	if err != nil {
		return Held{}, err
	}
	if report.Fault != nil {
		return Held{}, report.Fault
	}
	return heldOf(report.Text)
}

// What reports in JSON have, where that is another form than the types above.

type toldKey struct {
	HeldKey
	Carries struct{ Verdict string }
}

type toldHeld struct {
	Key        *toldKey
	Curve      string
	Encryption struct{ Algorithms, Numbers []string }
}

// heldOf answers what a report in JSON says that a document holds.
func heldOf(text string) (Held, error) {
	var told struct{ Holds *toldHeld }
	if err := json.Unmarshal([]byte(text), &told); err != nil {
		return Held{}, fmt.Errorf("the report of libpkder: %w", err)
	}
	if told.Holds == nil {
		return Held{}, errors.New("the report of libpkder doesn't say what the document holds")
	}
	held := Held{Curve: told.Holds.Curve, Algorithms: told.Holds.Encryption.Algorithms}
	if told.Holds.Key != nil {
		key := told.Holds.Key.key()
		held.Key = &key
	}
	for _, digits := range told.Holds.Encryption.Numbers {
		number, err := strconv.ParseUint(digits, 10, 64)
		if err != nil {
			return Held{}, fmt.Errorf("the report of libpkder: %w", err)
		}
		held.Numbers = append(held.Numbers, number)
	}
	return held, nil
}

func (told toldKey) key() HeldKey {
	key := told.HeldKey
	key.Verdict = told.Carries.Verdict
	return key
}
