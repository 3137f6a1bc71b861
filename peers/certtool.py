"""GnuTLS's command certtool, as its manual has it for each kind (run.py says what a driver answers)."""
import json
import subprocess
import sys

IN = ["--inder", "--outder", "--infile", "/dev/stdin"]
COMMANDS = {"key": ["--pkcs8", "--password=", "--key-info", *IN], "request": ["--crq-info", *IN],
            "public": ["--pubkey-info", *IN], "encrypted": ["--p8-info", "--password=pkder", *IN]}
version = subprocess.run(["certtool", "--version"], capture_output=True, text=True).stdout.split()[1]
print(json.dumps({"name": "certtool", "version": version, "kinds": [*COMMANDS],
                  "call": "; ".join(" ".join(it) for it in COMMANDS.values())}), flush=True)
for line in sys.stdin:
    kind, document = line.split()
    ran = subprocess.run(["certtool", *COMMANDS[kind]], input=bytes.fromhex(document.strip("-")), capture_output=True)
    if ran.returncode < 0:
        # (a signal: it crashed)
        sys.exit(1)
    print("-" if ran.returncode else "+", flush=True)
