// node.mjs: the forms that users of Node.js' crypto have.
import {generateKeyPairSync} from "node:crypto";
import {writeFileSync} from "node:fs";

const SETTINGS = {
    rsa: ["rsa", {modulusLength: 2048}],
    pss: ["rsa-pss", {modulusLength: 2048}],
    dsa: ["dsa", {modulusLength: 1024, divisorLength: 160}],
    p256: ["ec", {namedCurve: "P-256"}],
    p384: ["ec", {namedCurve: "P-384"}],
    p521: ["ec", {namedCurve: "P-521"}],
    explicit: ["ec", {namedCurve: "P-256", paramEncoding: "explicit"}],
    ed25519: ["ed25519", {}],
    ed448: ["ed448", {}],
    x25519: ["x25519", {}],
    x448: ["x448", {}],
    dh: ["dh", {group: "modp14"}],
};
const TYPES = {
    rsa: ["pkcs8", "pkcs1"],
    ec: ["pkcs8", "sec1"]
};

for (const [name, [algorithm, options]] of Object.entries(SETTINGS)) {
    const {privateKey, publicKey} = generateKeyPairSync(algorithm, options);
    for (const format of ["pem", "der"]) {
        for (const type of TYPES[algorithm] ?? ["pkcs8"]) {
            writeFileSync(`private-${name}-${type}.${format}`, privateKey.export({type, format}));
            if (type === "pkcs8" || format === "pem") {
                const locked = {type, format, cipher: "aes-256-cbc", passphrase: "secret"};
                writeFileSync(`encrypted-${name}-${type}.${format}`, privateKey.export(locked));
            }
        }
        for (const type of algorithm === "rsa" ? ["spki", "pkcs1"] : ["spki"]) {
            writeFileSync(`public-${name}-${type}.${format}`, publicKey.export({type, format}));
        }
    }
    if (!["pss", "dsa", "dh", "explicit"].includes(name)) {
        writeFileSync(`private-${name}.json`, JSON.stringify(privateKey.export({format: "jwk"})));
        writeFileSync(`public-${name}.json`, JSON.stringify(publicKey.export({format: "jwk"})));
    }
}
