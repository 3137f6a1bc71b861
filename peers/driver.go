// What the drivers in Go share. (run.py says what a driver answers)
package main

import (
	"bufio"
	"encoding/hex"
	"errors"
	"fmt"
	"os"
	"runtime"
	"strings"
)

// The version of a library that isn't Go's own: it is given to the linker.
var version string

func main() {
	if version == "" {
		version = strings.TrimPrefix(runtime.Version(), "go")
	}
	fmt.Printf(about+"\n", version)
	lines := bufio.NewScanner(os.Stdin)
	lines.Buffer(make([]byte, 1<<20), 1<<20)
	for lines.Scan() {
		kind, text, _ := strings.Cut(lines.Text(), " ")
		document, _ := hex.DecodeString(strings.TrimPrefix(text, "-"))
		if written, err := rewritten(kind, document); err != nil {
			fmt.Println("-")
		} else {
			fmt.Printf("+%x\n", written)
		}
	}
}

// The answer of a driver that writes nothing.
func answer(isTaken bool) ([]byte, error) {
	if isTaken {
		return nil, nil
	}
	return nil, errors.New("refused")
}
