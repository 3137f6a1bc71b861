//go:build stand_in

package pkder

import (
	"errors"
	"fmt"
	"testing"
)

// refusalOfAll is what all calls answer of the octets, Explain, Asks, Holds and Field too.
func refusalOfAll(t *testing.T, document []byte) error {
	refused := refusal(t, document)
	if err := unreported(t, document); err.Error() != refused.Error() {
		t.Fatal(document, refused, err)
	}
	return refused
}

// unreported is what Explain, Asks, Holds and Field answer of the octets.
func unreported(t *testing.T, document []byte) error {
	_, explained := Explain(Key, Usual(), document, ReportForm{})
	_, asked := Asks(Usual(), document)
	_, held := Holds(Key, Usual(), document)
	_, err := Field(Key, Usual(), document)
	for _, it := range []error{explained, asked, held} {
		if err == nil || it == nil || err.Error() != it.Error() {
			t.Fatal(document, it, err)
		}
	}
	return err
}

// refusal is what the other calls answer of the octets.
func refusal(t *testing.T, document []byte) error {
	_, checked := Check(Key, Usual(), document)
	_, normalised := Normalise(Key, Usual(), document)
	_, shown := Show(Key, Usual(), document)
	_, part := Signed(Info, Usual(), document)
	required := RequireDER(Key, Usual(), document)
	for _, err := range []error{required, normalised, shown, part} {
		if err == nil || checked == nil || err.Error() != checked.Error() {
			t.Fatal(document, checked, err)
		}
	}
	return checked
}

// What the package makes of answers that no document brings: go test -tags stand_in -run StandIn, where pkg-config finds
// the stand-in of interface/c/stand_in.c.
func TestStandIn(t *testing.T) {
	if err := refusalOfAll(t, []byte{3, 0, 0}); err != ErrMemory {
		t.Error(err)
	}
	if err := refusalOfAll(t, []byte{4, 0, 0}); err != ErrCall {
		t.Error(err)
	}
	if err := refusalOfAll(t, []byte{9, 0, 0}); err.Error() != "libpkder answers the status 9" {
		t.Error(err)
	}
	// (that of two documents is no answer of other calls)
	if err := refusalOfAll(t, []byte{8, 0, 0}); err.Error() != "libpkder answers the status 8" {
		t.Error(err)
	}
	// (statuses of reports are no answer of other calls)
	if err := refusal(t, []byte{6, 0, 0}); err.Error() != "libpkder answers the status 6" {
		t.Error(err)
	}
	if err := refusal(t, []byte{7, 0, 0}); err.Error() != "libpkder answers the status 7" {
		t.Error(err)
	}
	var fault *Fault
	if err := refusalOfAll(t, []byte{1, 28, 28}); !errors.As(err, &fault) ||
		fault.Error() != "fault at 5: Later inside at 7: Later" {
		t.Error(err)
	}
}

// What the package makes of reports: statuses of other calls are no answer of them.
func TestStandInOfReports(t *testing.T) {
	report, err := Explain(Key, Usual(), []byte{6, 28, 28}, ReportForm{})
	if err != nil || report.Form.DER || report.Fault.Error() != "fault at 5: Later inside at 7: Later" {
		t.Error(report, err)
	}
	if path, err := Field(Key, Usual(), []byte{6, 28, 28}); err != nil || path != "" {
		t.Error(path, err)
	}
	if _, err := Asks(Usual(), []byte{6, 28, 28}); err == nil || err.Error() != report.Fault.Error() {
		t.Error(err)
	}
	if _, err := Holds(Key, Usual(), []byte{6, 28, 28}); err == nil || err.Error() != report.Fault.Error() {
		t.Error(err)
	}
	// (a report without a fault, and without anything else)
	if _, err := Asks(Usual(), []byte{6, 0, 0}); err == nil {
		t.Error("a report of nothing says what is asked for")
	}
	if _, err := Holds(Key, Usual(), []byte{6, 0, 0}); err == nil {
		t.Error("a report of nothing says what is held")
	}
	for _, status := range []byte{0, 2, 5} {
		line := fmt.Sprintf("libpkder answers the status %d", status)
		if err := unreported(t, []byte{status, 0, 0}); err.Error() != line {
			t.Error(err)
		}
	}
}

// What the package makes of answers to two documents.
func TestStandInOfTwo(t *testing.T) {
	due := map[byte]string{
		0: "true <nil>", 8: "false <nil>", 1: "false second: fault at 5: ", 3: "false out of memory",
		4: "false no such kind, part or limits",
	}
	for _, status := range []byte{2, 5, 6, 7, 9} {
		due[status] = fmt.Sprintf("false libpkder answers the status %d", status)
	}
	for status, line := range due {
		document := []byte{status, 0, 0}
		same, err := Same(Key, Usual(), document, document)
		if told := fmt.Sprint(same, " ", err); told != line {
			t.Error(status, told)
		}
	}
}
