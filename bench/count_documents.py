#!/usr/bin/env python3
"""count_documents.py [shapes | members | FILE..]: the instructions of one call on documents, by valgrind's callgrind.

Without words it counts documents of each kind in examples/, and then those that grow; FILE is one of examples/ that is
normalised in its answers.tsv. What is counted is the difference between so many calls in one process and twice as many,
so neither its start nor its end; malloc's instructions are in it. Of documents that grow it prints the instructions for
each octet, of one and of those with two and four times the parts; and with `members` what an octet of small elements
in one open value takes. By hand, after bench/build.sh values; the gate doesn't run it."""
import csv
import os
import re
import subprocess
import sys
from concurrent.futures import ThreadPoolExecutor

HERE = os.path.dirname(os.path.realpath(__file__))
COUNTED = os.path.join(HERE, "out", "counted")
EXAMPLES = os.path.join(os.path.dirname(HERE), "examples")
FILES = """smallest p256 rsa2048 rfc8410 rfc8410-indefinite p256-sec1 p521-sec1 request-ed25519 request-p256
    request-rsa2048 request-indefinite public-ed25519 public-p256 public-rsa2048 encrypted encrypted-indefinite package
    package-indefinite""".split()
CALLS = ("read", "write", "normalise", "check", "openssl-read", "openssl-write")
OURS = CALLS[:4]
# The calls on a document of at most so many octets, and on a greater one.
SMALL, TIMES, TIMES_OF_GREAT = 4096, 200, 1
AT_ONCE = 4


def instructions(document, kind, call, times):
    """The instructions of a process that does the call so many times."""
    counting = ["valgrind", "--tool=callgrind", "--callgrind-out-file=/dev/null", COUNTED]
    ran = subprocess.run([*counting, "repeat", kind, call, str(times)], input=document, capture_output=True, check=True)
    return int(re.search(rb"Collected : (\d+)", ran.stderr)[1])


def of_one_call(document, kind, call):
    """The instructions of one call; None where OpenSSL refuses the document."""
    times = TIMES if len(document) <= SMALL else TIMES_OF_GREAT
    try:
        once, twice = (instructions(document, kind, call, it) for it in (times, 2 * times))
    except subprocess.CalledProcessError:
        if call in OURS:
            raise
        return None
    return (twice - once) / times


def counts(documents, calls):
    """The instructions of each of the calls, for each document with its kind."""
    with ThreadPoolExecutor(AT_ONCE) as pool:
        asked = [[pool.submit(of_one_call, *it, call) for call in calls] for it in documents]
        yield from ([count.result() for count in row] for row in asked)


def kinds():
    """The kind of each file that is normalised."""
    with open(os.path.join(EXAMPLES, "answers.tsv"), encoding="utf-8") as table:
        rows = [row for row in csv.reader(table, delimiter="\t", quoting=csv.QUOTE_NONE) if len(row) > 4 and not row[3]]
    found = (re.fullmatch(r"normalise --kind (\w+)(?: .*)?@([\w-]+)\.der", " ".join(row[1:3])) for row in rows)
    return {it[2]: it[1] for it in found if it}


def count_files(names):
    kind_of, documents = kinds(), []
    for name in names:
        with open(os.path.join(EXAMPLES, f"{name}.der"), "rb") as file:
            documents.append((file.read(), kind_of[name]))
    print("| Document | Kind | Octets | " + " | ".join(CALLS) + " | check of read |")
    for name, (document, kind), row in zip(names, documents, counts(documents, CALLS)):
        figures = " | ".join("refused" if it is None else f"{it:,.0f}" for it in row)
        print(f"| `{name}` | {kind} | {len(document):,} | {figures} | {row[3] / row[0]:.2f} |", flush=True)


def made(name, parts):
    return subprocess.run([COUNTED, "make", name, str(parts)], capture_output=True, check=True).stdout


def told(word):
    """The kind, the parts and the name of each document that the program tells by this word."""
    lines = subprocess.run([COUNTED, word], capture_output=True, text=True, check=True).stdout.splitlines()
    return [line.split(maxsplit=2) for line in lines]


def count_members():
    documents = [(made(name, int(parts)), kind) for kind, parts, name in told("members")]
    print("| Elements of one value | " + " | ".join(OURS) + " |")
    for (_, _, name), (document, _), row in zip(told("members"), documents, counts(documents, OURS)):
        print(f"| {name} | " + " | ".join(f"{it / len(document):.1f}" for it in row) + " |", flush=True)


def count_shapes():
    print("| Document | Kind | Octets | " + " | ".join(OURS) + " |")
    for kind, parts, name in told("shapes"):
        documents = [(made(name, int(parts) * it), kind) for it in (1, 2, 4)]
        rows = [[it / len(document) for it in row] for (document, _), row in zip(documents, counts(documents, OURS))]
        octets = ", ".join(f"{len(document):,}" for document, _ in documents)
        figures = " | ".join(", ".join(f"{it:.1f}" for it in call) for call in zip(*rows))
        print(f"| {name} | {kind} | {octets} | {figures} |", flush=True)


def main(words):
    if words == ["members"]:
        count_members()
    elif words != ["shapes"]:
        count_files([os.path.basename(it).removesuffix(".der") for it in words] or FILES)
    if words in ([], ["shapes"]):
        count_shapes()


if __name__ == "__main__":
    main(sys.argv[1:])
