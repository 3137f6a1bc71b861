"""OpenSSL's command, as its manual has it for each kind (run.py says what a driver answers)."""
import json
import subprocess
import sys

DER = ["-inform", "DER", "-outform", "DER"]
COMMANDS = {"key": ["pkcs8", "-topk8", "-nocrypt", *DER], "ec": ["ec", *DER], "request": ["req", *DER],
            "public": ["pkey", "-pubin", *DER], "encrypted": ["pkcs8", "-passin", "pass:pkder", "-inform", "DER"]}
version = subprocess.run(["openssl", "version"], capture_output=True, text=True).stdout.split()[1]
print(json.dumps({"name": "openssl, the command", "version": version, "kinds": [*COMMANDS],
                  "call": "; ".join(" ".join(it) for it in COMMANDS.values())}), flush=True)
for line in sys.stdin:
    kind, document = line.split()
    ran = subprocess.run(["openssl", *COMMANDS[kind]], input=bytes.fromhex(document.strip("-")), capture_output=True)
    if ran.returncode < 0:
        # (a signal: it crashed)
        sys.exit(1)
    written = ran.stdout.hex() if kind != "encrypted" else ""
    print("-" if ran.returncode or not ran.stdout else f"+{written}", flush=True)
