// Package pkder reads, checks and normalises private keys, public keys and certification requests (certificate signing
// requests, CSRs) in BER and DER, by libpkder, which is proved. Octets are bytes, and a DER text is a DER encoding.
// pkg-config has to find the library. Each call takes a whole document, and may come from any goroutine.
//
// RequireDER refuses whatever isn't in DER:
//
//	if err := pkder.RequireDER(pkder.Request, pkder.Usual(), request); err != nil {
//		return err
//	}
//
// All other calls take BER, too. Of Check look at the Form, and not at err alone. Same tells whether two documents are
// the same; of one that is refused its err is a Fault, which says which one it is. Explain has a report of any octets,
// for people, and Field the field that it is about; of a document that is refused their err is nil, and the Report
// tells the Fault.
//
// Asks has what a request asks for, as types. An err of its methods says that it can't be told:
//
//	asked, err := pkder.Asks(pkder.Usual(), request)
//	if err != nil {
//		return err
//	}
//	names, err := asked.DNS()
//
// Holds has what a document of another kind holds: its algorithm or its curve, the size of a key of RSA, and how a key
// is encrypted.
package pkder

/*
#cgo pkg-config: pkder
#include <pkder.h>

typedef pkder_outcome (*text_call)(uint32_t, uint32_t, uint64_t, const uint8_t *, size_t, uint8_t *, size_t);

static pkder_outcome text_of(text_call call, uint32_t what, uint32_t depth, uint64_t octets, const uint8_t *src,
                             size_t src_len, uint8_t *dst, size_t dst_len) {
	return call(what, depth, octets, src, src_len, dst, dst_len);
}
*/
import "C"

import (
	"errors"
	"fmt"
	"unsafe"
)

// Kind is what a document is.
type Kind uint32

// Part is a part of a request.
type Part uint32

// The kinds of documents, and the parts of a request.
const (
	Key        Kind = C.PKDER_KEY         // OneAsymmetricKey, PKCS #8 (RFC 5958)
	EC         Kind = C.PKDER_EC          // ECPrivateKey (RFC 5915)
	Request    Kind = C.PKDER_REQUEST     // CertificationRequest, PKCS #10 (RFC 2986)
	Public     Kind = C.PKDER_PUBLIC      // SubjectPublicKeyInfo (RFC 5280)
	Encrypted  Kind = C.PKDER_ENCRYPTED   // EncryptedPrivateKeyInfo (RFC 5958); nothing is decrypted
	Package    Kind = C.PKDER_PACKAGE     // AsymmetricKeyPackage (RFC 5958), a list of private keys
	Info       Part = C.PKDER_INFO        // the DER text of what the signature covers
	Algorithm  Part = C.PKDER_ALGORITHM   // the DER text of the signature's algorithm
	SubjectKey Part = C.PKDER_SUBJECT_KEY // the DER text of the public key
	Signature  Part = C.PKDER_SIGNATURE   // the octets of the signature
	Received   Part = C.PKDER_RECEIVED    // what the signature covers as it came, which some signers sign instead
)

// Limits are the depth of nesting, 1 to 64, and the octets of a document and of its DER text, 1 to 2147483647.
type Limits struct {
	Depth  uint32
	Octets uint64
}

// Usual answers the limits that the program pkder has unless said otherwise.
func Usual() Limits {
	return Limits{Depth: C.PKDER_DEPTH, Octets: C.PKDER_OCTETS}
}

// The names of reasons, which a Fault has. A later library may answer others.
const (
	ReasonTruncated   = "Truncated"
	ReasonTooLong     = "TooLong"
	ReasonBadTag      = "BadTag"
	ReasonPastEnd     = "PastEnd"
	ReasonBadEnd      = "BadEnd"
	ReasonTooDeep     = "TooDeep"
	ReasonWrongTag    = "WrongTag"
	ReasonExtra       = "Extra"
	ReasonLeftOut     = "LeftOut"
	ReasonWrongForm   = "WrongForm"
	ReasonBadLength   = "BadLength"
	ReasonMissing     = "Missing"
	ReasonBadInteger  = "BadInteger"
	ReasonBadBoolean  = "BadBoolean"
	ReasonBadNull     = "BadNull"
	ReasonBadBits     = "BadBits"
	ReasonBadOid      = "BadOid"
	ReasonBadText     = "BadText"
	ReasonEmptySet    = "EmptySet"
	ReasonVersion     = "Version"
	ReasonParameters  = "Parameters"
	ReasonInner       = "Inner"
	ReasonCurve       = "Curve"
	ReasonKeyLength   = "KeyLength"
	ReasonVersionRule = "VersionRule"
	ReasonTextTooLong = "TextTooLong"
	ReasonTrailing    = "Trailing"
)

// Fault is the first fault of a document that is refused. InsideReason is empty unless Reason is Inner; then it and
// InsideAt are of what is inside privateKey. Which says of Same in which document it is, 1 or 2, and is 0 of all other
// calls.
type Fault struct {
	At           uint64
	Reason       string
	InsideAt     uint64
	InsideReason string
	Which        int
}

// Error is the line that the program prints; of Same after the words "first: " or "second: ".
func (fault *Fault) Error() string {
	line := fmt.Sprintf("fault at %d: %s", fault.At, fault.Reason)
	switch fault.Which {
	case 1:
		line = "first: " + line
	case 2:
		line = "second: " + line
	}
	if fault.InsideReason != "" {
		line += fmt.Sprintf(" inside at %d: %s", fault.InsideAt, fault.InsideReason)
	}
	return line
}

// NotDER is the error of RequireDER for a document that is sound, and not in DER: At is the first place that is another
// one in its DER text.
type NotDER struct {
	At uint64
}

// Error is the line that the program prints.
func (why *NotDER) Error() string {
	return Form{At: why.At}.String()
}

var (
	// ErrMemory says that memory ran out, and nothing of the document.
	ErrMemory = errors.New("out of memory")
	// ErrCall says that there is no such kind or part, or that the limits are out of range.
	ErrCall = errors.New("no such kind, part or limits")
)

// Form says whether a sound document is in DER; where it isn't, At is the first place that is another one in its DER
// text.
type Form struct {
	DER bool
	At  uint64
}

// String is the line that the program prints.
func (form Form) String() string {
	if form.DER {
		return "DER"
	}
	return fmt.Sprintf("not DER at %d", form.At)
}

// ReportForm is how a report is written: the zero value as text with the elements that matter.
type ReportForm struct {
	All  bool // with all elements
	JSON bool // as one object of JSON, in a line
	TLS  bool // with the notes for TLS servers, too
}

// number is the form's number in pkder.h.
func (form ReportForm) number() C.uint32_t {
	var number C.uint32_t
	if form.All {
		number |= C.PKDER_ALL
	}
	if form.JSON {
		number |= C.PKDER_JSON
	}
	if form.TLS {
		number |= C.PKDER_TLS
	}
	return number
}

// Report is a report of a document, refused or not. Fault is why it is refused, and nil where it is sound; of a sound
// one Form says whether it is in DER. So Form.DER is true of a document in DER alone.
type Report struct {
	Text  string
	Form  Form
	Fault *Fault
}

// RequireDER answers nil where the document is in DER, a *NotDER where it is sound and isn't, and else why it is
// refused.
func RequireDER(kind Kind, limits Limits, document []byte) error {
	form, err := Check(kind, limits, document)
	if err != nil {
		return err
	}
	if !form.DER {
		return &NotDER{At: form.At}
	}
	return nil
}

// Normalise answers the document's DER text: two documents say the same exactly where these are equal.
func Normalise(kind Kind, limits Limits, document []byte) ([]byte, error) {
	return textOf(C.text_call(C.pkder_normalise), uint32(kind), limits, document)
}

// Check answers whether the document is in DER. The error is nil of a document in BER, too.
func Check(kind Kind, limits Limits, document []byte) (Form, error) {
	outcome := C.pkder_check(C.uint32_t(kind), C.uint32_t(limits.Depth), C.uint64_t(limits.Octets),
		start(document), C.size_t(len(document)))
	switch outcome.status {
	case C.PKDER_ACCEPTED:
		return Form{DER: true}, nil
	case C.PKDER_NOT_DER:
		return Form{At: uint64(outcome.at)}, nil
	}
	return Form{}, errorOf(outcome)
}

// Same answers whether two documents are the same: whether they say the same, however they are laid out, which is
// whether their DER texts are equal. One that is refused is the same as none: the error is its *Fault.
func Same(kind Kind, limits Limits, first, second []byte) (bool, error) {
	outcome := C.pkder_same(C.uint32_t(kind), C.uint32_t(limits.Depth), C.uint64_t(limits.Octets),
		start(first), C.size_t(len(first)), start(second), C.size_t(len(second)))
	switch outcome.status {
	case C.PKDER_ACCEPTED:
		return true, nil
	case C.PKDER_ANOTHER:
		return false, nil
	}
	return false, errorOf(outcome)
}

// Signed answers a part of a request.
func Signed(part Part, limits Limits, request []byte) ([]byte, error) {
	return textOf(C.text_call(C.pkder_signed), uint32(part), limits, request)
}

// Show answers what the document says, a line for each part; of private keys the number of octets alone.
func Show(kind Kind, limits Limits, document []byte) (string, error) {
	text, err := textOf(C.text_call(C.pkder_show), uint32(kind), limits, document)
	return string(text), err
}

// Explain answers a report of the octets, whether they are a document or not: its elements with their places, and of a
// refused one which field is at fault, what is due there, the usual cause and what to do. No octets of private keys and
// no values of attributes are in it, but the known extensions that an accepted request asks for.
func Explain(kind Kind, limits Limits, document []byte, form ReportForm) (Report, error) {
	text, outcome, err := written(firstRoom, C.PKDER_REPORTED, C.PKDER_UNREPORTED, func(room []byte) C.pkder_outcome {
		return C.pkder_explain(C.uint32_t(kind), C.uint32_t(limits.Depth), C.uint64_t(limits.Octets), form.number(),
			start(document), C.size_t(len(document)), start(room), C.size_t(len(room)))
	})
	report := Report{Text: string(text)}
	switch {
	case err != nil:
		return Report{}, err
	case outcome.reason != 0:
		report.Fault = faultOf(outcome)
	default:
		report.Form = Form{DER: outcome.at == 0, At: uint64(outcome.at)}
	}
	return report, nil
}

// Field answers the path of the field that the report is about, as "privateKey.publicExponent": of a refused document
// the field that is refused, or the name of the outermost type; of one in BER the first field that isn't in DER; "" of
// one in DER. It reads the document again, as Explain does.
func Field(kind Kind, limits Limits, document []byte) (string, error) {
	path, _, err := written(firstRoom, C.PKDER_REPORTED, C.PKDER_UNREPORTED, func(room []byte) C.pkder_outcome {
		return C.pkder_field(C.uint32_t(kind), C.uint32_t(limits.Depth), C.uint64_t(limits.Octets),
			start(document), C.size_t(len(document)), start(room), C.size_t(len(room)))
	})
	return string(path), err
}

// firstRoom is room for a report or a field at first; reports of all elements may need more.
const firstRoom = 8192

// textOf answers what the call writes; nearly always the document's own size is enough.
func textOf(call C.text_call, what uint32, limits Limits, document []byte) ([]byte, error) {
	text, _, err := written(len(document), C.PKDER_ACCEPTED, C.PKDER_NO_ROOM, func(room []byte) C.pkder_outcome {
		return C.text_of(call, C.uint32_t(what), C.uint32_t(limits.Depth), C.uint64_t(limits.Octets),
			start(document), C.size_t(len(document)), start(room), C.size_t(len(room)))
	})
	return text, err
}

// written answers what the call writes, with this room at first and then with as much as it asks for, and its outcome.
// The status is done of a call that wrote, and short of one with too little room.
func written(size int, done, short C.uint32_t, call func([]byte) C.pkder_outcome) ([]byte, C.pkder_outcome, error) {
	for {
		room := make([]byte, size)
		outcome := call(room)
		switch outcome.status {
		case done:
			return room[:outcome.size], outcome, nil
		case short:
			size = int(outcome.size)
		default:
			return nil, outcome, errorOf(outcome)
		}
	}
}

func faultOf(outcome C.pkder_outcome) *Fault {
	fault := &Fault{
		At: uint64(outcome.at), Reason: nameOf(outcome.reason), InsideAt: uint64(outcome.inside_at),
		Which: int(outcome.which),
	}
	if outcome.inside_reason != 0 {
		fault.InsideReason = nameOf(outcome.inside_reason)
	}
	return fault
}

func errorOf(outcome C.pkder_outcome) error {
	switch outcome.status {
	case C.PKDER_FAULT:
		return faultOf(outcome)
	case C.PKDER_NO_MEMORY:
		return ErrMemory
	case C.PKDER_BAD_CALL:
		return ErrCall
	}
	// (a later library's: whatever it means, the document isn't accepted)
	return fmt.Errorf("libpkder answers the status %d", outcome.status)
}

func nameOf(reason C.uint32_t) string {
	var room [16]byte
	return string(room[:C.pkder_reason_name(reason, start(room[:]), C.size_t(len(room)))])
}

// start is where the octets begin; nil where there are none.
func start(octets []byte) *C.uint8_t {
	if len(octets) == 0 {
		return nil
	}
	return (*C.uint8_t)(unsafe.Pointer(&octets[0]))
}

// reasonName is the name of the reason of this number. (Tests can't call C themselves.)
func reasonName(number uint32) string {
	return nameOf(C.uint32_t(number))
}

// loaded is the number of the library's interface.
func loaded() uint32 {
	return uint32(C.pkder_interface())
}
