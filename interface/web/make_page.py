#!/usr/bin/env python3
"""make_page.py MODULE.wasm PAGE.html: one file with all of the page in it, the module too.

Its policy names the sums of its own script and style, and allows nothing else."""
import base64
import hashlib
import os
import re
import sys

HERE = os.path.dirname(os.path.realpath(__file__))
SCRIPTS = ("pkder.mjs", "reading.mjs", "page.mjs")


def text_of(name):
    with open(f"{HERE}/{name}", encoding="utf-8") as it:
        return it.read()


def joined(names):
    """The scripts as one: what one exports the ones after it have by its name."""
    texts = [re.sub(r"^import .*?;\n", "", text_of(f"src/{it}"), flags=re.M | re.S) for it in names]
    return "\n".join(re.sub(r"^export ", "", it, flags=re.M) for it in texts)


def sum_of(text):
    """A source expression of the policy."""
    return f"'sha256-{base64.b64encode(hashlib.sha256(text.encode()).digest()).decode()}'"


def page(module):
    script, style = joined(SCRIPTS), text_of("src/page.css")
    policy = (f"default-src 'none'; script-src {sum_of(script)} 'wasm-unsafe-eval'; style-src {sum_of(style)}; "
              "base-uri 'none'; form-action 'none'")
    limits = dict(re.findall(r"#define PKDER_(DEPTH|OCTETS) (?:UINT64_C\()?([0-9]+)", text_of("../pkder.h")))
    version = re.search("^Version: (.*)$", text_of("../pkder.pc.in"), re.M)[1]
    values = {"POLICY": policy, "STYLE": style, "SCRIPT": script, "MODULE": base64.b64encode(module).decode(),
              "VERSION": version, **limits}
    return re.sub("@([A-Z]+)@", lambda it: values[it[1]], text_of("src/page.html"))


def main(words):
    if len(words) != 2:
        sys.exit(__doc__)
    with open(words[0], "rb") as it:
        made = page(it.read())
    with open(words[1], "w", encoding="utf-8") as it:
        it.write(made)
    print(f"{words[1]}: {len(made)} octets")


if __name__ == "__main__":
    main(sys.argv[1:])
