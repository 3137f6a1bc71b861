package pkder

import (
	"encoding/json"
	"errors"
	"fmt"
)

// ErrUntold says that what a request asks for by an extension can't be told: its value isn't in DER, or the request has
// the extension twice.
var ErrUntold = errors.New("the value of the extension isn't in DER, or the request has it twice")

// Asked is what a request asks for, in the order of the file; its signature isn't verified. Subject has a list for each
// relative name, Attributes has those but extensionRequest by their names, whose values aren't told, and Extensions
// what extensionRequest has. The error of its methods is ErrUntold or nil.
type Asked struct {
	Subject    [][]NameAttribute
	Key        HeldKey
	Signature  AskedAlgorithm
	Attributes []string
	Extensions []Extension
}

// NameAttribute is an attribute of the subject: the arcs of its type, the usual name of that, empty where there is
// none, and its characters. Of one that is no string Text is nil, and Value says what it is; of one in segments (BER)
// both are nil.
type NameAttribute struct {
	Identifier string
	Name       string
	Text       *string
	Value      *Value
}

// AskedAlgorithm is an algorithm by its usual name, else by its arcs, and so what its parameters name, as a curve,
// empty where they name nothing.
type AskedAlgorithm struct {
	Algorithm  string
	Parameters string
}

// Extension is an extension: its arcs, its usual name, empty where there is none, whether it is critical, its place,
// and as Verdict what its value is as one of its type: "der", "not_der" or "refused", and empty where the type isn't
// known. What stands in a value in DER is in Names (subjectAltName, issuerAltName), Bits (keyUsage) or Values (all
// others).
type Extension struct {
	Identifier string
	Name       string
	Critical   bool
	At         uint64
	Verdict    string
	Names      []Name
	Bits       []string
	Values     []Element
}

// Name is a name in a subjectAltName or an issuerAltName: Kind is "dns", "email", "uri", "ip" or "oid", and Text is
// what stands there, whatever its characters are. A name of another type, as a directoryName or an otherName, has a
// Name of kind "other" for each primitive element in it, which is Element; and so none where it is empty.
type Name struct {
	Kind    string
	Text    string
	Element *Element
}

// Element is a primitive element in an extension: the name of its field, empty of a member of a list, and its
// characters; of one that is no string Text is nil, and Value says what it is.
type Element struct {
	Field string
	Text  *string
	Value *Value
}

// String is what the element says: its characters, a usual name, arcs, or octets in hexadecimal digits.
func (element Element) String() string {
	value := element.Value
	switch {
	case element.Text != nil:
		return *element.Text
	case value == nil:
		return ""
	case value.Name != "":
		return value.Name
	case value.Identifier != "":
		return value.Identifier
	}
	return value.Hexadecimal
}

// Value is what an element says that is no string: the arcs of an object identifier and its usual name, whether it is
// TRUE, a number, how many octets there are, and these in hexadecimal digits. What it doesn't say is empty or nil.
type Value struct {
	Identifier  string
	Name        string
	Boolean     *bool
	Integer     *uint64
	Octets      *uint64
	Hexadecimal string
}

// Asks answers what a request asks for, by the report that Explain makes of it. The error of a request that is refused
// is its *Fault; one in BER isn't refused.
func Asks(limits Limits, request []byte) (Asked, error) {
	report, err := Explain(Request, limits, request, ReportForm{JSON: true})
	if err != nil {
		return Asked{}, err
	}
	if report.Fault != nil {
		return Asked{}, report.Fault
	}
	return askedOf(report.Text)
}

// SAN answers the names of the subjectAltName, of whatever kind; none where it isn't there.
func (asked Asked) SAN() ([]Name, error) {
	extension, err := asked.one("subjectAltName")
	return extension.Names, err
}

// DNS answers the names of kind "dns" alone: SAN has the others.
func (asked Asked) DNS() ([]string, error) {
	names, err := asked.SAN()
	var found []string
	for _, name := range names {
		if name.Kind == "dns" {
			found = append(found, name.Text)
		}
	}
	return found, err
}

// KeyUsage answers the names of the bits of the keyUsage that are 1; none where it isn't there.
func (asked Asked) KeyUsage() ([]string, error) {
	extension, err := asked.one("keyUsage")
	return extension.Bits, err
}

// ExtendedKeyUsage answers the purposes of the extKeyUsage by their usual names, else by their arcs; none where it
// isn't there.
func (asked Asked) ExtendedKeyUsage() ([]string, error) {
	extension, err := asked.one("extKeyUsage")
	var found []string
	for _, purpose := range extension.Values {
		found = append(found, purpose.String())
	}
	return found, err
}

// IsCA answers whether the basicConstraints has cA TRUE; false where it isn't there. Look at the error: of one that
// can't be told it answers false, too.
func (asked Asked) IsCA() (bool, error) {
	extension, err := asked.one("basicConstraints")
	for _, it := range extension.Values {
		if it.Field == "cA" && it.Value != nil && it.Value.Boolean != nil && *it.Value.Boolean {
			return true, err
		}
	}
	return false, err
}

// one answers the extension of this name, an empty one where it isn't there.
func (asked Asked) one(name string) (Extension, error) {
	var found []Extension
	for _, it := range asked.Extensions {
		if it.Name == name {
			found = append(found, it)
		}
	}
	switch {
	case len(found) == 0:
		return Extension{}, nil
	case len(found) > 1 || found[0].Verdict != "der":
		return Extension{}, ErrUntold
	}
	return found[0], nil
}

// What reports in JSON have, where that is another form than the types above; keys are read as names of fields whatever
// their case.

type toldAsked struct {
	Asked
	Key        toldKey
	Extensions []toldExtension
}

type toldExtension struct {
	Extension
	Carries struct{ Verdict string }
	Names   []toldName
}

type toldName struct {
	Element
	DNS, Email, URI, IP, OID *string
}

// askedOf answers what a report in JSON says that a request asks for.
func askedOf(text string) (Asked, error) {
	var told struct{ Asks *toldAsked }
	if err := json.Unmarshal([]byte(text), &told); err != nil {
		return Asked{}, fmt.Errorf("the report of libpkder: %w", err)
	}
	if told.Asks == nil {
		return Asked{}, errors.New("the report of libpkder doesn't say what the request asks for")
	}
	asked := told.Asks.Asked
	asked.Key = told.Asks.Key.key()
	for _, it := range told.Asks.Extensions {
		asked.Extensions = append(asked.Extensions, it.extension())
	}
	return asked, nil
}

func (told toldExtension) extension() Extension {
	extension := told.Extension
	extension.Verdict = told.Carries.Verdict
	for _, it := range told.Names {
		extension.Names = append(extension.Names, it.name())
	}
	return extension
}

func (told toldName) name() Name {
	words := []string{"dns", "email", "uri", "ip", "oid"}
	for i, text := range []*string{told.DNS, told.Email, told.URI, told.IP, told.OID} {
		if text != nil {
			return Name{Kind: words[i], Text: *text}
		}
	}
	element := told.Element
	return Name{Kind: "other", Text: element.String(), Element: &element}
}
