package pkder

import (
	"bytes"
	"encoding/hex"
	"errors"
	"go/ast"
	"go/parser"
	"go/token"
	"os"
	"regexp"
	"strconv"
	"strings"
	"sync"
	"testing"
)

var kinds = map[string]Kind{
	"key": Key, "ec": EC, "request": Request, "public": Public, "encrypted": Encrypted, "package": Package,
}
var parts = map[string]Part{"info": Info, "algorithm": Algorithm, "key": SubjectKey, "signature": Signature,
	"received": Received}

// limitsOf are the limits that the words ask for.
func limitsOf(t *testing.T, words []string) Limits {
	depth, wrong := strconv.ParseUint(words[4], 10, 32)
	octets, bad := strconv.ParseUint(words[6], 10, 64)
	if wrong != nil || bad != nil {
		t.Fatal(words)
	}
	return Limits{Depth: uint32(depth), Octets: octets}
}

// said is the program's status, output and line for the call that the words ask for.
func said(t *testing.T, words []string, given []byte) (string, []byte, string) {
	limits := limitsOf(t, words)
	var text []byte
	var err error
	status := "0"
	switch words[0] {
	case "normalise":
		text, err = Normalise(kinds[words[2]], limits, given)
	case "signed":
		text, err = Signed(parts[words[2]], limits, given)
	case "show":
		var lines string
		lines, err = Show(kinds[words[2]], limits, given)
		text = []byte(lines)
	case "explain":
		var report Report
		form := ReportForm{All: has(words, "--all"), JSON: has(words, "--json"), TLS: has(words, "--profile=tls")}
		report, err = Explain(kinds[words[2]], limits, given, form)
		text, status = []byte(report.Text), statusOf(report)
	case "field":
		var path string
		path, err = Field(kinds[words[2]], limits, given)
		report, _ := Explain(kinds[words[2]], limits, given, ReportForm{})
		text, status = []byte(path), statusOf(report)
	case "check":
		var form Form
		form, err = Check(kinds[words[2]], limits, given)
		text = []byte(form.String() + "\n")
		if !form.DER {
			status = "1"
		}
	}
	if err != nil {
		return "2", nil, err.Error()
	}
	return status, text, ""
}

func has(words []string, word string) bool {
	for _, it := range words {
		if it == word {
			return true
		}
	}
	return false
}

// statusOf is the program's status for a report.
func statusOf(report Report) string {
	switch {
	case report.Fault != nil:
		return "2"
	case !report.Form.DER:
		return "1"
	}
	return "0"
}

// reported is what a report tells of what Check is asked for: its second line, and that of its Fault or Form.
func reported(t *testing.T, words []string, given []byte) (string, string) {
	report, err := Explain(kinds[words[2]], limitsOf(t, words), given, ReportForm{})
	lines := strings.Split(report.Text, "\n")
	if err != nil || len(lines) < 3 {
		t.Fatal(words, err, report.Text)
	}
	if report.Fault != nil {
		return lines[1], report.Fault.Error()
	}
	return lines[1], report.Form.String()
}

// required is the line of what RequireDER answers that is asked for as Check is.
func required(t *testing.T, words []string, given []byte) string {
	if err := RequireDER(kinds[words[2]], limitsOf(t, words), given); err != nil {
		return err.Error()
	}
	return "DER"
}

func octetsOf(t *testing.T, cell string) []byte {
	octets, err := hex.DecodeString(cell)
	if err != nil {
		t.Fatal(err)
	}
	return octets
}

// The rows that PKDER_CALLS names; interface/calls.py makes them.
func TestRows(t *testing.T) {
	table, err := os.ReadFile(os.Getenv("PKDER_CALLS"))
	if err != nil {
		t.Fatal(err)
	}
	lines := strings.Split(strings.TrimSuffix(string(table), "\n"), "\n")
	for _, line := range lines {
		cells := strings.Split(line, "\t")
		status, output, told := said(t, strings.Split(cells[1], " "), octetsOf(t, cells[2]))
		if status != cells[3] || !bytes.Equal(output, octetsOf(t, cells[4])) || told != cells[5] {
			t.Errorf("%s: %s: status %s, %x, %s", cells[0], cells[1], status, output, told)
		}
		if strings.HasPrefix(cells[1], "check") {
			due := strings.TrimSuffix(string(octetsOf(t, cells[4])), "\n") + cells[5]
			if line := required(t, strings.Split(cells[1], " "), octetsOf(t, cells[2])); line != due {
				t.Errorf("%s: %s: %s", cells[0], cells[1], line)
			}
			if line, told := reported(t, strings.Split(cells[1], " "), octetsOf(t, cells[2])); line != due || told != due {
				t.Errorf("%s: %s: %s, %s", cells[0], cells[1], line, told)
			}
		}
	}
	if len(lines) <= 800 {
		t.Error(len(lines), "rows")
	}
}

// compared is the answer of Same in the words of the table of pairs.
func compared(kind Kind, limits Limits, first, second []byte) string {
	same, err := Same(kind, limits, first, second)
	switch {
	case err != nil:
		return err.Error()
	case same:
		return "the same"
	}
	return "another"
}

// The pairs that PKDER_PAIRS names; interface/pairs.py makes them.
func TestPairs(t *testing.T) {
	table, err := os.ReadFile(os.Getenv("PKDER_PAIRS"))
	if err != nil {
		t.Fatal(err)
	}
	lines := strings.Split(strings.TrimSuffix(string(table), "\n"), "\n")
	for _, line := range lines {
		cells := strings.Split(line, "\t")
		limits := limitsOf(t, []string{4: cells[2], 6: cells[3]})
		answer := compared(kinds[cells[1]], limits, octetsOf(t, cells[4]), octetsOf(t, cells[5]))
		if answer != cells[6] {
			t.Errorf("%s: %s: %s", cells[0], cells[1], answer)
		}
	}
	if len(lines) <= 1000 {
		t.Error(len(lines), "pairs")
	}
}

// A fault says which document it is in; of calls that take one it says none.
func TestWhich(t *testing.T) {
	key := append(octetsOf(t, "302a300506032b6570032100"), make([]byte, 32)...)
	for which, pair := range [][2][]byte{1: {key[:20], key}, 2: {key, key[:20]}} {
		var fault *Fault
		same, err := Same(Public, Usual(), pair[0], pair[1])
		if which > 0 && (same || !errors.As(err, &fault) || fault.Which != which || fault.At != 20) {
			t.Error(which, same, err)
		}
	}
	var fault *Fault
	if err := RequireDER(Public, Usual(), key[:20]); !errors.As(err, &fault) || fault.Which != 0 {
		t.Error(err)
	}
	// (two that are refused are never the same)
	if same, err := Same(Public, Usual(), key[:20], key[:20]); same || err == nil {
		t.Error(same, err)
	}
}

func TestBadCalls(t *testing.T) {
	for _, limits := range []Limits{{0, 9}, {65, 9}, {288, 9}, {1, 0}, {1, 1 << 31}, {1, 1<<32 + 9}} {
		if _, err := Check(Key, limits, nil); err != ErrCall {
			t.Error(limits, err)
		}
		if _, err := Explain(Key, limits, nil, ReportForm{}); err != ErrCall {
			t.Error(limits, err)
		}
		if _, err := Field(Key, limits, nil); err != ErrCall {
			t.Error(limits, err)
		}
		if same, err := Same(Key, limits, nil, nil); same || err != ErrCall {
			t.Error(limits, same, err)
		}
	}
	if _, err := Normalise(7, Usual(), nil); err != ErrCall {
		t.Error(err)
	}
	if _, err := Field(7, Usual(), nil); err != ErrCall {
		t.Error(err)
	}
	if _, err := Signed(6, Usual(), nil); err != ErrCall {
		t.Error(err)
	}
}

// A line that looks at the error alone refuses a document in BER.
func TestCareless(t *testing.T) {
	key := append(octetsOf(t, "302a300506032b6570032100"), make([]byte, 32)...)
	if err := RequireDER(Public, Usual(), key); err != nil {
		t.Error(err)
	}
	// (its outer length has two octets)
	inBER := append([]byte{0x30, 0x81}, key[1:]...)
	var notDER *NotDER
	err := RequireDER(Public, Usual(), inBER)
	if !errors.As(err, &notDER) || notDER.At != 1 || err.Error() != "not DER at 1" {
		t.Error(err)
	}
}

// Reports in each form, of a document in BER and of a refused one.
func TestReports(t *testing.T) {
	key := append(octetsOf(t, "302a300506032b6570032100"), make([]byte, 32)...)
	inBER := append([]byte{0x30, 0x81}, key[1:]...)
	for _, form := range []ReportForm{{}, {All: true}, {JSON: true}, {All: true, JSON: true}, {TLS: true}} {
		report, err := Explain(Public, Usual(), inBER, form)
		if err != nil || report.Fault != nil || (report.Form != Form{At: 1}) {
			t.Error(form, report, err)
		}
		// (with all elements it lists subjectPublicKey too, at 10)
		if isListed := strings.Contains(report.Text, "\n10  03 21"); isListed != (form == ReportForm{All: true}) {
			t.Error(form, report.Text)
		}
		if strings.HasPrefix(report.Text, "{") != form.JSON {
			t.Error(form, report.Text)
		}
		if strings.Contains(report.Text, "key_algorithm") != form.TLS {
			t.Error(form, report.Text)
		}
		report, err = Explain(Public, Usual(), key[:20], form)
		if err != nil || report.Form.DER || report.Fault == nil || report.Fault.Reason != ReasonTruncated {
			t.Error(form, report, err)
		}
	}
}

// The field that a report is about, of a document in DER, of one in BER and of a refused one.
func TestField(t *testing.T) {
	key := append(octetsOf(t, "302a300506032b6570032100"), make([]byte, 32)...)
	inBER := append([]byte{0x30, 0x81}, key[1:]...)
	due := map[string][]byte{"": key, "SubjectPublicKeyInfo": inBER, "subjectPublicKey": key[:20]}
	for path, document := range due {
		if found, err := Field(Public, Usual(), document); err != nil || found != path {
			t.Error(path, found, err)
		}
	}
	// (with 43 octets at most it is too long from its first octet on)
	found, err := Field(Public, Limits{Depth: 32, Octets: 43}, key)
	if err != nil || found != "SubjectPublicKeyInfo" {
		t.Error(found, err)
	}
}

// A report of all elements that is longer than the room that it gets at first.
func TestLongReport(t *testing.T) {
	names := bytes.Repeat(octetsOf(t, "310b300906035504030c026161"), 400)
	// (the octets end after the algorithm of the public key, without which no subject is listed)
	request := append(octetsOf(t, "30827fff30827ff002010030821450"), names...)
	request = append(request, octetsOf(t, "302a300506032b6570")...)
	report, err := Explain(Request, Usual(), request, ReportForm{All: true, JSON: true})
	if err != nil || len(report.Text) <= 2*firstRoom || !strings.HasSuffix(report.Text, "}\n") {
		t.Error(len(report.Text), err)
	}
	if report.Fault == nil || report.Fault.At != uint64(len(request)) {
		t.Error(report.Fault)
	}
}

// The limits of one caller aren't those of another.
func TestUsual(t *testing.T) {
	limits := Usual()
	limits.Depth, limits.Octets = 1, 1
	if (Usual() != Limits{Depth: 32, Octets: 1048576}) {
		t.Error(Usual())
	}
}

// named are the constants of the package whose names begin with Reason, without that, and their values.
func named(t *testing.T) map[string]string {
	file, err := parser.ParseFile(token.NewFileSet(), "pkder.go", nil, 0)
	if err != nil {
		t.Fatal(err)
	}
	found := map[string]string{}
	ast.Inspect(file, func(node ast.Node) bool {
		spec, ok := node.(*ast.ValueSpec)
		if ok && strings.HasPrefix(spec.Names[0].Name, "Reason") {
			found[strings.TrimPrefix(spec.Names[0].Name, "Reason")], _ = strconv.Unquote(spec.Values[0].(*ast.BasicLit).Value)
		}
		return true
	})
	return found
}

// The reasons of pkder.h, which PKDER_HEADER names.
func TestReasons(t *testing.T) {
	header, err := os.ReadFile(os.Getenv("PKDER_HEADER"))
	if err != nil {
		t.Fatal(err)
	}
	rows := regexp.MustCompile(`#define PKDER_REASON_(\w+) ([0-9]+)u`).FindAllStringSubmatch(string(header), -1)
	found := named(t)
	for _, row := range rows {
		number, _ := strconv.Atoi(row[2])
		name := reasonName(uint32(number))
		if found[name] != name || !strings.EqualFold(strings.ReplaceAll(row[1], "_", ""), name) {
			t.Error(row, name, found[name])
		}
	}
	if len(rows) < 27 || len(found) != len(rows) {
		t.Error(len(rows), len(found))
	}
}

func TestFault(t *testing.T) {
	var fault *Fault
	if _, err := Show(Public, Usual(), nil); !errors.As(err, &fault) || fault.At != 0 || fault.Reason != ReasonTruncated {
		t.Error(err)
	}
}

func TestInterface(t *testing.T) {
	if loaded() != 1 {
		t.Error(loaded())
	}
}

func TestThreads(t *testing.T) {
	key := append(octetsOf(t, "302a300506032b6570032100"), make([]byte, 32)...)
	var group sync.WaitGroup
	for i := 0; i < 4; i++ {
		group.Add(1)
		go func() {
			defer group.Done()
			for j := 0; j < 5000; j++ {
				if text, err := Normalise(Public, Usual(), key); err != nil || !bytes.Equal(text, key) {
					t.Error(text, err)
					return
				}
				if report, err := Explain(Public, Usual(), key, ReportForm{}); err != nil || !report.Form.DER {
					t.Error(report, err)
					return
				}
				if same, err := Same(Public, Usual(), key, key); err != nil || !same {
					t.Error(same, err)
					return
				}
				if path, err := Field(Public, Usual(), key); err != nil || path != "" {
					t.Error(path, err)
					return
				}
			}
		}()
	}
	group.Wait()
}
