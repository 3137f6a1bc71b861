//! What requests of the repository ask for, and what other documents hold, as `openssl req -text` and `openssl
//! asn1parse` show it. PKDER_HEADER names a file of interface/, above which they lie.
use pkder::{asks, holds, Asks, Carried, Error, Holds, Key, Kind, Limits, Name, Reason};
use std::path::PathBuf;

/// The octets of a document of the repository.
fn octets_of(name: &str) -> Vec<u8> {
    let header = PathBuf::from(std::env::var("PKDER_HEADER").expect("PKDER_HEADER names pkder.h"));
    std::fs::read(header.parent().unwrap().parent().unwrap().join(name.to_owned() + ".der")).unwrap()
}

fn asks_of(name: &str) -> Asks {
    asks(&octets_of(name)).unwrap_or_else(|why| panic!("{name}: {why}"))
}

fn explained(name: &str) -> Asks {
    asks_of(&format!("tests/pkder/explained/{name}"))
}

/// The attributes of the subject by their names and characters.
fn subject(asked: &Asks) -> String {
    let attributes = asked.subject.iter().flatten();
    let said = attributes.map(|it| {
        let name = it.name.as_deref().unwrap_or_default();
        format!("{name}={}", it.text.as_deref().unwrap_or("no text"))
    });
    said.collect::<Vec<_>>().join(", ")
}

/// What is told, or that it can't be.
fn fact<T: std::fmt::Debug>(told: Result<T, Error>) -> String {
    match told {
        Ok(told) => format!("{told:?}").replace('"', ""),
        Err(Error::Untold) => "untold".to_owned(),
        Err(why) => why.to_string(),
    }
}

/// The names, the DNS names, the usages, the purposes, and whether it asks for a CA.
fn facts(asked: &Asks) -> String {
    let (names, usage) = (fact(asked.san()), fact(asked.key_usage()));
    let (purposes, is_ca) = (fact(asked.extended_key_usage()), fact(asked.is_ca()));
    [names, fact(asked.dns()), usage, purposes, is_ca].join("; ")
}

#[test]
fn what_requests_ask_for() {
    let common = "commonName=www.example.org";
    let two = "[Dns(www.example.com), Dns(example.com)]; [www.example.com, example.com]; ";
    for (name, due_subject, due) in [
        (
            "examples/request-p256",
            "countryName=US, organizationName=Example, commonName=www.example.com",
            "[]; []; false",
        ),
        // (its strings are in segments, and the value of the subjectAltName, too)
        (
            "examples/request-indefinite",
            "countryName=no text, organizationName=no text, commonName=no text",
            "[]; []; false",
        ),
        (
            "tests/pkder/explained/critical-false",
            "countryName=DE, organizationName=Müller und Söhne GmbH, commonName=www.example.com",
            "[digitalSignature]; []; false",
        ),
    ] {
        let asked = asks_of(name);
        assert_eq!((subject(&asked), facts(&asked)), (due_subject.to_owned(), two.to_owned() + due), "{name}");
    }
    for (name, due) in [
        (
            "extensions-sound",
            "[Dns(www.example.org), Ip(192.0.2.17)]; [www.example.org]; [digitalSignature, keyEncipherment]; \
             [id-kp-serverAuth]; false",
        ),
        ("note-extension-length", "untold; untold; []; []; false"),
        ("note-extension-text", "untold; untold; []; []; false"),
        ("note-extension-empty", "[]; []; []; untold; false"),
        ("note-extension-true", "[]; []; []; []; untold"),
        ("note-extension-false", "[]; []; []; []; untold"),
    ] {
        let asked = explained(name);
        assert_eq!((subject(&asked), facts(&asked)), (common.to_owned(), due.to_owned()), "{name}");
    }
    assert_eq!(facts(&explained("note-extension-twice")), "[Dns(a.example)]; [a.example]; untold; []; false");
    let asked = asks_of("examples/request-rsa2048");
    assert_eq!(subject(&asked), "countryName=US, organizationName=Example, commonName=rsa.example.com");
    assert_eq!(facts(&asked), "[]; []; []; []; false");
    let address = explained("extensions-sound").san().unwrap()[1].address();
    assert_eq!(address, Some("192.0.2.17".parse().unwrap()));
}

/// Whatever is told of a key.
type OfKey<'a> = (&'a str, Option<&'a str>, Option<u64>, Option<Carried>, Option<u64>, Option<&'a str>);

fn of_key(key: &Key) -> OfKey<'_> {
    let exponent = key.exponent.as_deref();
    (&key.algorithm, key.parameters.as_deref(), key.octets, key.verdict, key.bits, exponent)
}

const OF_RSA: OfKey<'_> = ("rsaEncryption", None, Some(270), Some(Carried::Der), Some(2048), Some("65537"));

#[test]
fn algorithms_of_keys_and_signatures() {
    let p256 = |octets| ("id-ecPublicKey", Some("P-256"), octets, None, None, None);
    for (name, key, signature) in [
        ("tests/pkder/explained/extensions-sound", ("Ed25519", None, Some(32), None, None, None), "Ed25519"),
        ("examples/request-p256", p256(Some(65)), "ecdsa-with-SHA256"),
        ("examples/request-rsa2048", OF_RSA, "sha256WithRSAEncryption"),
        ("examples/request-indefinite", p256(None), "ecdsa-with-SHA256"),
    ] {
        let asked = asks_of(name);
        let found = (of_key(&asked.key), asked.signature.algorithm.as_str(), &asked.signature.parameters);
        assert_eq!(found, (key, signature, &None), "{name}");
    }
}

#[test]
fn extensions_and_attributes() {
    let asked = explained("extensions-sound");
    let found: Vec<_> = asked
        .extensions
        .iter()
        .map(|it| (it.identifier.as_str(), it.name.as_deref().unwrap(), it.critical, it.at, it.verdict))
        .collect();
    let der = Some(Carried::Der);
    let due = [
        ("2.5.29.17", "subjectAltName", false, 101, der),
        ("2.5.29.15", "keyUsage", true, 135, der),
        ("2.5.29.37", "extKeyUsage", false, 151, der),
        ("2.5.29.19", "basicConstraints", true, 172, der),
    ];
    assert_eq!((&found[..], asked.attributes.len()), (&due[..], 0));
    let purpose = &asked.extensions[2].values[0];
    assert_eq!((purpose.identifier.as_deref(), purpose.field.as_deref()), (Some("1.3.6.1.5.5.7.3.1"), None));
    // (attributes have names alone)
    let asked = explained("critical-false");
    assert_eq!(asked.attributes, ["challengePassword"]);
    assert!(!format!("{asked:?}").contains("secret"));
    let verdict = |name| explained(name).extensions[0].verdict;
    assert_eq!(verdict("note-extension-length"), Some(Carried::NotDer));
    assert_eq!(verdict("note-extension-text"), Some(Carried::Refused));
}

#[test]
fn a_request_for_an_authority() {
    let mut request = octets_of("tests/pkder/explained/note-extension-true");
    // (its TRUE is another octet than FF)
    let at = request.windows(5).position(|it| it == [0x30, 3, 1, 1, 1]).unwrap();
    request[at + 4] = 0xFF;
    let asked = asks(&request).unwrap();
    assert_eq!(asked.is_ca(), Ok(true));
    let value = &asked.extensions[0].values[0];
    assert_eq!((value.field.as_deref(), value.boolean, value.to_string().as_str()), (Some("cA"), Some(true), "true"));
    assert_eq!(asked.san(), Ok(&[] as &[Name]));
}

#[test]
fn refused_requests() {
    let whole = octets_of("examples/request-p256");
    for request in [&[][..], &whole[..whole.len() - 1], &octets_of("examples/public-p256")] {
        assert!(matches!(asks(request), Err(Error::Fault(_))));
    }
    let why = asks(&octets_of("examples/request-followed")).unwrap_err();
    assert_eq!(why.to_string(), "fault at 148: Trailing");
    match (Limits { depth: 32, octets: 100 }).asks(&whole) {
        Err(Error::Fault(fault)) => assert_eq!(fault.reason, Reason::TOO_LONG),
        other => panic!("{other:?}"),
    }
}

#[test]
fn what_documents_hold() {
    let held = |name: &str, kind| holds(kind, &octets_of(&format!("examples/{name}"))).unwrap();
    for (name, kind, due) in [
        ("rsa2048", Kind::Key, ("rsaEncryption", None, None, None, Some(2048), Some("65537"))),
        ("p384", Kind::Key, ("id-ecPublicKey", Some("P-384"), None, None, None, None)),
        ("public-rsa2048", Kind::Public, OF_RSA),
        ("public-p256", Kind::Public, ("id-ecPublicKey", Some("P-256"), Some(65), None, None, None)),
        ("public-indefinite", Kind::Public, ("Ed25519", None, None, None, None, None)),
    ] {
        let found = held(name, kind);
        assert_eq!(found.key.as_ref().map(of_key), Some(due), "{name}");
        assert_eq!((&found.curve, found.algorithms.len(), found.numbers.len()), (&None, 0, 0), "{name}");
    }
    let curve = |found: Holds| (found.key.is_none(), found.curve);
    assert_eq!(curve(held("k256-sec1", Kind::Ec)), (true, Some("secp256k1".to_owned())));
    // (an EC key without parameters)
    let bare = [&[0x30, 0x25, 2, 1, 1, 4, 0x20][..], &[0x11; 32]].concat();
    assert_eq!(curve(holds(Kind::Ec, &bare).unwrap()), (true, None));
    let found = held("encrypted-keytool", Kind::Encrypted);
    assert_eq!(found.algorithms, ["id-PBES2", "id-PBKDF2", "id-hmacWithSHA256", "aes256-CBC-PAD"]);
    assert_eq!((found.numbers, found.key), (vec![10000, 32], None));
}

/// Public keys of RSA by the contents of their BIT STRINGs (X.690 8.3).
#[test]
fn keys_of_rsa() {
    let (der, not_der, refused) = (Carried::Der, Carried::NotDer, Carried::Refused);
    for (contents, verdict, bits, exponent) in [
        ("003006020121020103", der, Some(6), Some("3")),
        ("0030090202ff7f0203010001", der, None, Some("65537")),
        ("00300d0206008000000000020300ffff", der, Some(40), Some("65535")),
        ("00300b02020101020500ffffffff", der, Some(9), Some("0x00ffffffff")),
        ("0030060201210201ff", der, Some(6), Some("0xff")),
        ("00308106020121020103", not_der, None, None),
        ("003003020121", refused, None, None),
        ("013006020121020102", refused, None, None),
    ] {
        let octet = |at: usize| u8::from_str_radix(&contents[at..at + 2], 16).unwrap();
        let contents: Vec<u8> = (0..contents.len()).step_by(2).map(octet).collect();
        let algorithm = b"\x30\x0d\x06\x09\x2a\x86\x48\x86\xf7\x0d\x01\x01\x01\x05\x00";
        let key = [&algorithm[..], &[3, contents.len() as u8], &contents].concat();
        let held = holds(Kind::Public, &[&[0x30, key.len() as u8][..], &key].concat()).unwrap();
        let due = ("rsaEncryption", None, Some(contents.len() as u64 - 1), Some(verdict), bits, exponent);
        assert_eq!(held.key.as_ref().map(of_key), Some(due), "{contents:02x?}");
    }
}

#[test]
fn refused_documents() {
    assert!(matches!(holds(Kind::Key, &[]), Err(Error::Fault(_))));
    for kind in [Kind::Request, Kind::Package] {
        assert_eq!(holds(kind, &[]), Err(Error::Kind));
    }
}
