//! What the crate makes of answers that no document brings: `cargo test --test stand_in -- --ignored`, linked to the
//! stand-in of interface/c/stand_in.c.
use pkder::{
    asks, check, explain, field, holds, normalise, require_der, same, show, signed, Error, Kind, Part, ReportForm,
};

/// What all calls answer of the octets.
fn refusal(document: &[u8]) -> Error {
    let error = check(Kind::Key, document).unwrap_err();
    assert_eq!(require_der(Kind::Key, document), Err(error));
    assert_eq!(normalise(Kind::Key, document), Err(error));
    assert_eq!(show(Kind::Key, document), Err(error));
    assert_eq!(signed(Part::Info, document), Err(error));
    error
}

/// What `explain`, `field`, `asks` and `holds` answer of the octets.
fn unreported(document: &[u8]) -> Error {
    let error = explain(Kind::Key, document, ReportForm::default()).unwrap_err();
    assert_eq!(field(Kind::Key, document), Err(error));
    assert_eq!(asks(document), Err(error));
    assert_eq!(holds(Kind::Key, document), Err(error));
    error
}

/// What all calls answer of the octets, these too.
fn refusal_of_all(document: &[u8]) -> Error {
    let error = refusal(document);
    assert_eq!(unreported(document), error);
    error
}

/// Whether the document is the same as itself.
fn is_same(document: &[u8]) -> Result<bool, Error> {
    same(Kind::Key, document, document)
}

#[test]
#[ignore = "not linked to the stand-in"]
fn refusals() {
    assert_eq!(refusal_of_all(&[3, 0, 0]), Error::Memory);
    assert_eq!(refusal_of_all(&[4, 0, 0]), Error::Limits);
    assert_eq!(refusal_of_all(&[9, 0, 0]), Error::Unknown(9));
    assert_eq!(is_same(&[3, 0, 0]), Err(Error::Memory));
    assert_eq!(is_same(&[4, 0, 0]), Err(Error::Limits));
    assert_eq!(is_same(&[9, 0, 0]), Err(Error::Unknown(9)));
}

#[test]
#[ignore = "not linked to the stand-in"]
fn two_documents() {
    assert_eq!(is_same(&[0, 0, 0]), Ok(true));
    assert_eq!(is_same(&[8, 0, 0]), Ok(false));
    assert_eq!(refusal_of_all(&[8, 0, 0]), Error::Unknown(8));
    for status in [2, 5, 6, 7] {
        assert_eq!(is_same(&[status, 0, 0]), Err(Error::Unknown(status.into())));
    }
}

#[test]
#[ignore = "not linked to the stand-in"]
fn statuses_of_reports_are_no_answer_of_other_calls() {
    assert_eq!(refusal(&[6, 0, 0]), Error::Unknown(6));
    assert_eq!(refusal(&[7, 0, 0]), Error::Unknown(7));
}

#[test]
#[ignore = "not linked to the stand-in"]
fn statuses_of_other_calls_are_no_answer_of_reports() {
    for status in [0, 2, 5] {
        assert_eq!(unreported(&[status, 0, 0]), Error::Unknown(status.into()));
    }
}

#[test]
#[ignore = "not linked to the stand-in"]
fn reports_of_a_later_library() {
    let report = explain(Kind::Key, &[6, 28, 28], ReportForm::default()).unwrap();
    assert_eq!(report.verdict.unwrap_err().to_string(), "fault at 5: Later inside at 7: Later");
    assert!(!report.is_der());
    assert_eq!(field(Kind::Key, &[6, 28, 28]).unwrap(), "");
    assert_eq!(asks(&[6, 28, 28]), Err(Error::Fault(report.verdict.unwrap_err())));
    assert_eq!(holds(Kind::Key, &[6, 28, 28]), Err(Error::Fault(report.verdict.unwrap_err())));
    // (a report without a fault, and without anything else)
    assert_eq!(asks(&[6, 0, 0]), Err(Error::Report));
    assert_eq!(holds(Kind::Key, &[6, 0, 0]), Err(Error::Report));
}

#[test]
#[ignore = "not linked to the stand-in"]
fn faults_of_a_later_library() {
    assert_eq!(refusal_of_all(&[1, 28, 0]).to_string(), "fault at 5: Later");
    assert_eq!(refusal_of_all(&[1, 28, 28]).to_string(), "fault at 5: Later inside at 7: Later");
    // (of the second document)
    assert_eq!(is_same(&[1, 28, 28]).unwrap_err().to_string(), "second: fault at 5: Later inside at 7: Later");
}
