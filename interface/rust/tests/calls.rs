//! The rows that PKDER_CALLS names (interface/calls.py makes them), the pairs that PKDER_PAIRS names
//! (interface/pairs.py), reports, calls that are wrong, and threads.
use pkder::{
    check, explain, field, normalise, require_der, same, show, Error, Form, Kind, Limits, Part, Reason, Report,
    ReportForm,
};

/// An answer: status, output and line on standard error, as the program's.
type Said = (u32, Vec<u8>, String);

fn octets(hex: &str) -> Vec<u8> {
    (0..hex.len()).step_by(2).map(|at| u8::from_str_radix(&hex[at..at + 2], 16).unwrap()).collect()
}

fn kind_of(name: &str) -> Kind {
    match name {
        "key" => Kind::Key,
        "ec" => Kind::Ec,
        "request" => Kind::Request,
        "public" => Kind::Public,
        "encrypted" => Kind::Encrypted,
        "package" => Kind::Package,
        _ => panic!("no kind {name}"),
    }
}

fn part_of(name: &str) -> Part {
    match name {
        "info" => Part::Info,
        "algorithm" => Part::Algorithm,
        "key" => Part::SubjectKey,
        "signature" => Part::Signature,
        "received" => Part::Received,
        _ => panic!("no part {name}"),
    }
}

fn limits_of(words: &[&str]) -> Limits {
    Limits { depth: words[4].parse().unwrap(), octets: words[6].parse().unwrap() }
}

/// The program's status for a report.
fn status_of(report: &Report) -> u32 {
    report.verdict.map_or(2, |form| u32::from(!form.is_der()))
}

/// What the call answers that the words ask for.
fn said(words: &str, given: &[u8]) -> Said {
    let words: Vec<&str> = words.split(' ').collect();
    let limits = limits_of(&words);
    let mut status = 0;
    let answer = match words[0] {
        "normalise" => limits.normalise(kind_of(words[2]), given),
        "signed" => limits.signed(part_of(words[2]), given),
        "show" => limits.show(kind_of(words[2]), given).map(String::into_bytes),
        "check" => limits.check(kind_of(words[2]), given).map(|form| {
            status = u32::from(!form.is_der());
            format!("{form}\n").into_bytes()
        }),
        "explain" => {
            let has = |flag| words.contains(&flag);
            let form = ReportForm { all: has("--all"), json: has("--json"), tls: has("--profile=tls") };
            limits.explain(kind_of(words[2]), given, form).map(|report| {
                status = status_of(&report);
                report.text.into_bytes()
            })
        }
        "field" => limits.field(kind_of(words[2]), given).map(|path| {
            status = status_of(&limits.explain(kind_of(words[2]), given, ReportForm::default()).unwrap());
            path.into_bytes()
        }),
        _ => panic!("no command {}", words[0]),
    };
    match answer {
        Ok(output) => (status, output, String::new()),
        Err(error) => (2, Vec::new(), error.to_string()),
    }
}

/// The line of what `require_der` answers that is asked for as `check` is.
fn refusal(words: &str, given: &[u8]) -> String {
    let words: Vec<&str> = words.split(' ').collect();
    limits_of(&words).require_der(kind_of(words[2]), given).map_or_else(|why| why.to_string(), |()| "DER".to_owned())
}

/// What the report tells of what `check` is asked for: its second line, and that of its verdict.
fn reported(words: &str, given: &[u8]) -> (String, String) {
    let words: Vec<&str> = words.split(' ').collect();
    let report = limits_of(&words).explain(kind_of(words[2]), given, ReportForm::default()).unwrap();
    let line = report.verdict.map_or_else(|fault| fault.to_string(), |form| form.to_string());
    (report.text.lines().nth(1).unwrap().to_owned(), line)
}

#[test]
fn rows() {
    let name = std::env::var("PKDER_CALLS").expect("PKDER_CALLS names the rows");
    let table = std::fs::read_to_string(name).unwrap();
    let mut rows = 0;
    for line in table.lines() {
        let cells: Vec<&str> = line.split('\t').collect();
        let due: Said = (cells[3].parse().unwrap(), octets(cells[4]), cells[5].to_owned());
        assert_eq!(said(cells[1], &octets(cells[2])), due, "{}: {}", cells[0], cells[1]);
        if cells[1].starts_with("check") {
            let line = (String::from_utf8(due.1).unwrap() + &due.2).trim_end().to_owned();
            assert_eq!(refusal(cells[1], &octets(cells[2])), line, "{}: {}", cells[0], cells[1]);
            assert_eq!(reported(cells[1], &octets(cells[2])), (line.clone(), line), "{}: {}", cells[0], cells[1]);
        }
        rows += 1;
    }
    assert!(rows > 800, "{rows} rows");
}

/// The answer of `same` in the words of the table of pairs.
fn compared(kind: &str, limits: Limits, first: &[u8], second: &[u8]) -> String {
    match limits.same(kind_of(kind), first, second) {
        Ok(true) => "the same".to_owned(),
        Ok(false) => "another".to_owned(),
        Err(error) => error.to_string(),
    }
}

#[test]
fn pairs() {
    let name = std::env::var("PKDER_PAIRS").expect("PKDER_PAIRS names the pairs");
    let table = std::fs::read_to_string(name).unwrap();
    for line in table.lines() {
        let cells: Vec<&str> = line.split('\t').collect();
        let limits = Limits { depth: cells[2].parse().unwrap(), octets: cells[3].parse().unwrap() };
        let answer = compared(cells[1], limits, &octets(cells[4]), &octets(cells[5]));
        assert_eq!(answer, cells[6], "{}: {}", cells[0], cells[1]);
    }
    assert!(table.lines().count() > 1000);
}

#[test]
fn a_fault_says_which_document_it_is_in() {
    let key = octets("302a300506032b6570032100aaaaaaaaaaaaaaaaaaaaaaaaaaaaaaaaaaaaaaaaaaaaaaaaaaaaaaaaaaaaaaaa");
    let which = |first: &[u8], second: &[u8]| match same(Kind::Public, first, second) {
        Err(Error::Fault(fault)) => (fault.which, fault.at, fault.reason),
        other => panic!("{other:?}"),
    };
    assert_eq!(which(&key[..20], &key), (1, 20, Reason::TRUNCATED));
    assert_eq!(which(&key, &key[..19]), (2, 19, Reason::TRUNCATED));
    // (two that are refused are never the same)
    assert_eq!(which(&key[..20], &key[..20]), (1, 20, Reason::TRUNCATED));
    match check(Kind::Public, &key[..20]) {
        Err(Error::Fault(fault)) => assert_eq!((fault.which, fault.to_string()), (0, "fault at 20: Truncated".into())),
        other => panic!("{other:?}"),
    }
}

#[test]
fn a_careless_line_refuses_ber() {
    let accept = |key: &[u8]| require_der(Kind::Public, key);
    let key = octets("302a300506032b6570032100aaaaaaaaaaaaaaaaaaaaaaaaaaaaaaaaaaaaaaaaaaaaaaaaaaaaaaaaaaaaaaaa");
    // (its outer length has two octets)
    let in_ber = [&[0x30, 0x81][..], &key[1..]].concat();
    assert_eq!(accept(&key), Ok(()));
    assert_eq!(accept(&in_ber), Err(Error::NotDer(1)));
    assert_eq!(accept(&in_ber).unwrap_err().to_string(), "not DER at 1");
    assert_eq!(check(Kind::Public, &in_ber), Ok(Form::DiffersAt(1)));
}

#[test]
fn limits_out_of_range() {
    let depths = [0, 65, 288, u32::MAX].map(|depth| (depth, 9));
    let octets = [0, 1_u64 << 31, (1_u64 << 32) + 9, u64::MAX].map(|octets| (1, octets));
    for (depth, octets) in depths.into_iter().chain(octets) {
        let limits = Limits { depth, octets };
        assert_eq!(limits.check(Kind::Key, &[]), Err(Error::Limits));
        assert_eq!(limits.require_der(Kind::Key, &[]), Err(Error::Limits));
        assert_eq!(limits.normalise(Kind::Key, &[]), Err(Error::Limits));
        assert_eq!(limits.same(Kind::Key, &[], &[]), Err(Error::Limits));
        assert_eq!(limits.show(Kind::Key, &[]), Err(Error::Limits));
        assert_eq!(limits.signed(Part::Info, &[]), Err(Error::Limits));
        assert_eq!(limits.explain(Kind::Key, &[], ReportForm::default()), Err(Error::Limits));
        assert_eq!(limits.field(Kind::Key, &[]), Err(Error::Limits));
        assert_eq!(limits.asks(&[]), Err(Error::Limits));
        assert_eq!(limits.holds(Kind::Key, &[]), Err(Error::Limits));
    }
}

#[test]
fn reports_have_forms_and_verdicts() {
    let key = octets("302a300506032b6570032100aaaaaaaaaaaaaaaaaaaaaaaaaaaaaaaaaaaaaaaaaaaaaaaaaaaaaaaaaaaaaaaa");
    let in_ber = [&[0x30, 0x81][..], &key[1..]].concat();
    let verdict = |document: &[u8]| explain(Kind::Public, document, ReportForm::default()).unwrap().verdict;
    assert_eq!((verdict(&key), verdict(&in_ber)), (Ok(Form::Der), Ok(Form::DiffersAt(1))));
    assert_eq!(verdict(&key[..20]).unwrap_err().reason, Reason::TRUNCATED);
    let text = |all, json| explain(Kind::Public, &in_ber, ReportForm { all, json, tls: false }).unwrap().text;
    // (with all elements it lists subjectPublicKey too, at 10)
    assert_eq!([text(false, false), text(true, false)].map(|it| it.contains("\n10  03 21")), [false, true]);
    assert!(text(false, true).starts_with('{') && text(true, true).starts_with('{'));
    let noted = |tls| explain(Kind::Public, &key, ReportForm { tls, ..ReportForm::default() }).unwrap().text;
    assert_eq!([noted(false), noted(true)].map(|it| it.contains("key_algorithm")), [false, true]);
}

#[test]
fn the_field_of_a_report() {
    let key = octets("302a300506032b6570032100aaaaaaaaaaaaaaaaaaaaaaaaaaaaaaaaaaaaaaaaaaaaaaaaaaaaaaaaaaaaaaaa");
    let in_ber = [&[0x30, 0x81][..], &key[1..]].concat();
    assert_eq!(field(Kind::Public, &key).unwrap(), "");
    assert_eq!(field(Kind::Public, &in_ber).unwrap(), "SubjectPublicKeyInfo");
    assert_eq!(field(Kind::Public, &key[..20]).unwrap(), "subjectPublicKey");
    // (with 43 octets at most it is too long from its first octet on)
    assert_eq!(Limits { depth: 32, octets: 43 }.field(Kind::Public, &key).unwrap(), "SubjectPublicKeyInfo");
}

/// A report of all elements that is longer than the room that it gets at first.
#[test]
fn a_long_report_is_whole() {
    let names = octets("310b300906035504030c026161").repeat(400);
    // (the octets end after the algorithm of the public key, without which no subject is listed)
    let algorithm = octets("302a300506032b6570");
    let request = [octets("30827fff30827ff0020100308214").as_slice(), &[0x50], &names, &algorithm].concat();
    let report = explain(Kind::Request, &request, ReportForm { all: true, json: true, tls: false }).unwrap();
    assert!(report.text.len() > 16384 && report.text.ends_with("}\n"), "{} octets", report.text.len());
    assert_eq!(report.verdict.unwrap_err().at, request.len() as u64);
}

#[test]
fn no_octets() {
    assert_eq!(check(Kind::Package, &[]).unwrap_err().to_string(), "fault at 0: Truncated");
    assert_eq!(show(Kind::Encrypted, &[]).unwrap_err().to_string(), "fault at 0: Truncated");
}

#[test]
fn a_fault_has_its_place_and_reason() {
    match normalise(Kind::Public, &[0x30, 0x05]) {
        Err(Error::Fault(fault)) => {
            assert_eq!((fault.at, fault.reason, fault.inside), (2, Reason::TRUNCATED, None));
            assert_eq!(fault.reason.number(), 1);
        }
        other => panic!("{other:?}"),
    }
}

#[test]
fn threads() {
    let key = octets("302a300506032b6570032100aaaaaaaaaaaaaaaaaaaaaaaaaaaaaaaaaaaaaaaaaaaaaaaaaaaaaaaaaaaaaaaa");
    std::thread::scope(|scope| {
        for _ in 0..4 {
            scope.spawn(|| {
                for _ in 0..5000 {
                    assert_eq!(normalise(Kind::Public, &key).as_ref(), Ok(&key));
                    assert!(explain(Kind::Public, &key, ReportForm::default()).unwrap().is_der());
                    assert_eq!(same(Kind::Public, &key, &key), Ok(true));
                    assert_eq!(field(Kind::Public, &key).unwrap(), "");
                }
            });
        }
    });
}
