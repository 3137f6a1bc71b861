#!/usr/bin/env python3
"""try_readme.py: whether the code of vectors/README.md finds the tests that go wrong, in each language that the machine
has, with a reader that takes whatever begins with the identifier of a SEQUENCE and has an even number of octets.

The last line is 'readme: N passed, M failed'."""
import json
import os
import re
import shutil
import subprocess
import sys
import tempfile
from pathlib import Path

TOP = sys.path[0] = str(Path(__file__).resolve().parents[1])
from tools.gate.looks import counted

PYTHON = """def accepts(document):
    return document[:1] == b"0" and len(document) %% 2 == 0

%s"""
GO = """package main

import (
    "encoding/hex"
    "encoding/json"
    "fmt"
    "os"
)

func accepts(document []byte) bool {
    return len(document) > 0 && document[0] == '0' && len(document)%%2 == 0
}

func main() {
%s}
"""
RUST = """fn accepts(document: &[u8]) -> bool {
    document.first() == Some(&b'0') && document.len() %% 2 == 0
}
fn main() {
%s}
"""
JAVA = """import java.nio.file.*;
import java.util.HexFormat;
import java.util.regex.*;

class Try {
    static boolean accepts(byte[] document) {
        return document.length > 0 && document[0] == '0' && document.length %% 2 == 0;
    }
    public static void main(String[] words) throws Exception {
%s}}
"""
C = """#include <stdio.h>
#include <stdlib.h>
#include <string.h>
static char line[1 << 20];
static unsigned char document[1 << 20];
static int accepts(const unsigned char *document, size_t size) {
    return size > 0 && document[0] == '0' && size %% 2 == 0;
}
int main(void) {
    FILE *file = fopen("request.json", "r");
%s}
"""
# Of each language what its code stands in, the name of the file, and the commands that make and run it.
LANGUAGES = {
    "python": (PYTHON, "try.py", [[sys.executable, "try.py"]]),
    "go": (GO, "try.go", [["go", "run", "try.go"]]),
    "rust": (RUST, "try.rs", [["rustc", "--edition", "2021", "-o", "try", "try.rs"], ["./try"]]),
    "java": (JAVA, "Try.java", [["java", "Try.java"]]),
    "c": (C, "try.c", [["cc", "-o", "try", "try.c"], ["./try"]]),
}


def due():
    """The numbers of the tests that go wrong."""
    with open(f"{TOP}/vectors/request.json", encoding="utf-8") as file:
        tests = json.load(file)["testGroups"][0]["tests"]
    for test in tests:
        document = bytes.fromhex(test["document"])
        is_taken = document[:1] == b"0" and len(document) % 2 == 0
        if test["result"] != "acceptable" and is_taken != (test["result"] == "valid"):
            yield str(test["tcId"])


def found(language, code, folder):
    """What the code finds."""
    around, name, commands = LANGUAGES[language]
    Path(f"{folder}/{name}").write_text(around % code, encoding="utf-8")
    told = {**os.environ, "GO111MODULE": "off", "GOCACHE": f"{folder}/cache"}
    for words in commands:
        ran = subprocess.run(words, cwd=folder, env=told, capture_output=True, text=True)
        if ran.returncode:
            return [f"{' '.join(words)}: {ran.stderr[:500]}"]
    return ran.stdout.split()


def looks():
    with open(f"{TOP}/vectors/README.md", encoding="utf-8") as file:
        codes = dict(re.findall(r"(?ms)^```(\w+)\n(.*?)^```$", file.read()))
    yield "the page has each language", {*codes} == {*LANGUAGES}
    for language, code in codes.items():
        tool = LANGUAGES[language][2][0][0]
        if not shutil.which(tool):
            print(f"left out: {language}, without {tool}")
            continue
        with tempfile.TemporaryDirectory() as folder:
            shutil.copy(f"{TOP}/vectors/request.json", folder)
            told = found(language, code, folder)
        yield f"{language}: {told[:3]}", told == [*due()] and len(told) > 100


def main():
    return counted("readme", looks())


if __name__ == "__main__":
    sys.exit(main())
