#!/usr/bin/env python3
"""scale.py PROGRAM: how many times as fast as one process several are, as docs/scale.md has them started.

It makes 20,000 small documents of five kinds, as a file each, as one container and as four, and runs `check --any`
over the files by `xargs -P` with 1, 2 and 4 processes; over the container by `--each`; and over four containers, each
as long as that one, by GNU parallel with 1, 2 and 4 jobs. So many processes are pinned to so many processors, and the
least time of ROUNDS runs counts. What is printed are ratios of these, and how busy the machine was before and after. By
hand, on a machine that does nothing else; GNU parallel (Debian: parallel) is left out where it isn't there."""
import os
import shutil
import subprocess
import sys
import tempfile
import time
from functools import partial
from pathlib import Path

EXAMPLES = Path(__file__).resolve().parents[1] / "examples"
NAMES = ("smallest", "p256", "p256-sec1", "public-p256", "request-p256")
DOCUMENTS, CONTAINERS, AT_ONCE, ROUNDS = 20_000, 4, (1, 2, 4), 5


def least_time(processors, words, given=None):
    """The least seconds of some runs, pinned to so many of the processors that this process may use."""
    ours = sorted(os.sched_getaffinity(0))[:processors]
    times = []
    for _ in range(ROUNDS):
        began = time.monotonic()
        subprocess.run(words, input=given, stdout=subprocess.DEVNULL, check=True,
                       preexec_fn=partial(os.sched_setaffinity, 0, ours))
        times.append(time.monotonic() - began)
    return min(times)


def made(folder):
    """The names of the files, with an octet 0 after each, and those of the containers."""
    documents = [(EXAMPLES / f"{it}.der").read_bytes() for it in NAMES]
    names = []
    for number in range(DOCUMENTS):
        names.append(f"{folder}/{number}.der")
        Path(names[-1]).write_bytes(documents[number % len(documents)])
    containers = [f"{folder}/{number}.bin" for number in range(CONTAINERS)]
    for name in containers:
        Path(name).write_bytes(b"".join(documents) * (DOCUMENTS // len(documents)))
    return "".join(f"{it}\0" for it in names).encode(), containers


def ratios(times):
    """How many times as fast as the first each is."""
    return ", ".join(f"{times[AT_ONCE[0]] / times[it]:.2f} with {it}" for it in AT_ONCE)


def measured(check, folder):
    """A line for each way."""
    names, containers = made(folder)
    by_files = {it: least_time(it, ["xargs", "-0", "-P", str(it), "-n", "1000", *check, "--"], names) for it in AT_ONCE}
    yield f"files by xargs -P: {ratios(by_files)}"
    by_each = least_time(1, [*check, "--each", "--", containers[0]])
    yield f"a container by --each: {by_files[1] / by_each:.2f} times as fast as its documents as files"
    if shutil.which("parallel"):
        words = ["parallel", "--will-cite", "-j"]
        by_jobs = {it: least_time(it, [*words, str(it), *check, "--each", "--", ":::", *containers]) for it in AT_ONCE}
        yield f"{CONTAINERS} containers by parallel -j: {ratios(by_jobs)}"
    else:
        yield "left out: no parallel (Debian: apt-get install parallel)"


def main(words):
    if len(words) != 1:
        sys.exit(__doc__)
    before = os.getloadavg()[0]
    with tempfile.TemporaryDirectory() as folder:
        for line in measured([os.path.abspath(words[0]), "check", "--any"], folder):
            print(line, flush=True)
    busy = f"{before:.1f} processes wanted a processor in the minute before, {os.getloadavg()[0]:.1f} in the last one"
    print(f"{len(os.sched_getaffinity(0))} processors; {busy}")


if __name__ == "__main__":
    main(sys.argv[1:])
