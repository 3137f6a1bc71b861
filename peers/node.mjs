// node's crypto (run.py says what a driver answers).
import crypto from "node:crypto";
import readline from "node:readline";

const opened = (kind, key) => {
    if (kind === "public") {
        return crypto.createPublicKey({key, format: "der", type: "spki"}).export({format: "der", type: "spki"});
    }
    if (kind === "encrypted") {
        crypto.createPrivateKey({key, format: "der", type: "pkcs8", passphrase: "pkder"});
        return Buffer.alloc(0);
    }
    const type = kind === "ec" ? "sec1" : "pkcs8";
    return crypto.createPrivateKey({key, format: "der", type}).export({format: "der", type});
};
const about = {
    name: "node's crypto",
    version: `${process.versions.node}, OpenSSL ${process.versions.openssl}`,
    call: "createPrivateKey, createPublicKey, export",
    kinds: ["key", "ec", "public", "encrypted"],
};
console.log(JSON.stringify(about));
for await (const line of readline.createInterface({input: process.stdin})) {
    const [kind, document] = line.split(" ");
    try {
        console.log(`+${opened(kind, Buffer.from(document, "hex")).toString("hex")}`);
    } catch {
        console.log("-");
    }
}
