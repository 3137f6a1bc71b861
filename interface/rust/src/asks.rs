//! What a certification request asks for, as types.
use crate::holds::{Algorithm, Carried, Key};
use crate::json::Json;
use crate::Error;
use std::fmt;
use std::net::IpAddr;

/// What a primitive element says; what it doesn't say is `None`. Its `Display` is what it says as text.
#[derive(Clone, Debug, Default, PartialEq, Eq, Hash)]
#[non_exhaustive]
pub struct Value {
    /// The name of its field; `None` of a member of a list.
    pub field: Option<String>,
    /// The characters of a string.
    pub text: Option<String>,
    /// The arcs of an object identifier.
    pub identifier: Option<String>,
    /// The usual name of these.
    pub name: Option<String>,
    pub boolean: Option<bool>,
    pub integer: Option<u64>,
    /// How many octets there are.
    pub octets: Option<u64>,
    /// These in hexadecimal digits.
    pub hexadecimal: Option<String>,
}

impl Value {
    /// Of an element with its field.
    fn of(json: &Json<'_>) -> Option<Value> {
        let value = json.optional("value", Value::bare)?.unwrap_or_default();
        Some(Value { field: json.optional("field", Json::text)?, text: json.optional("text", Json::text)?, ..value })
    }

    fn bare(json: &Json<'_>) -> Option<Value> {
        Some(Value {
            field: None,
            text: None,
            identifier: json.optional("identifier", Json::text)?,
            name: json.optional("name", Json::text)?,
            boolean: json.optional("boolean", Json::boolean)?,
            integer: json.optional("integer", Json::number)?,
            octets: json.optional("octets", Json::number)?,
            hexadecimal: json.optional("hexadecimal", Json::text)?,
        })
    }
}

impl fmt::Display for Value {
    /// Its characters, its usual name or arcs, its octets in hexadecimal digits, its number, or whether it is TRUE.
    fn fmt(&self, f: &mut fmt::Formatter<'_>) -> fmt::Result {
        let said = [&self.text, &self.name, &self.identifier, &self.hexadecimal].into_iter().find_map(Option::as_ref);
        match (said, self.integer, self.boolean) {
            (Some(text), ..) => f.write_str(text),
            (None, Some(number), _) => write!(f, "{number}"),
            (None, None, Some(is_true)) => write!(f, "{is_true}"),
            (None, None, None) => Ok(()),
        }
    }
}

/// An attribute of the subject. Of one in segments (BER) both `text` and `value` are `None`.
#[derive(Clone, Debug, PartialEq, Eq, Hash)]
#[non_exhaustive]
pub struct NameAttribute {
    /// The arcs of its type.
    pub identifier: String,
    /// The usual name of its type.
    pub name: Option<String>,
    /// Its characters, of a string.
    pub text: Option<String>,
    /// What it says, of one that is no string.
    pub value: Option<Value>,
}

impl NameAttribute {
    fn of(json: &Json<'_>) -> Option<NameAttribute> {
        Some(NameAttribute {
            identifier: json.member("identifier", Json::text)?,
            name: json.optional("name", Json::text)?,
            text: json.optional("text", Json::text)?,
            value: json.optional("value", Value::bare)?,
        })
    }
}

/// A name in a subjectAltName or an issuerAltName, by what stands there, whatever its characters are; which its
/// `Display` is, too.
#[derive(Clone, Debug, PartialEq, Eq, Hash)]
#[non_exhaustive]
pub enum Name {
    Dns(String),
    Email(String),
    Uri(String),
    /// An address as text, which `address` parses; of another number of octets than 4 and 16, what stands there.
    Ip(String),
    /// A registered identifier by its arcs.
    Oid(String),
    /// A primitive element of a name of another type, as of a directoryName or an otherName: there is one of these for
    /// each, and so none where it is empty.
    Other(Value),
}

impl Name {
    /// The address of an `Ip` of 4 or 16 octets.
    pub fn address(&self) -> Option<IpAddr> {
        match self {
            Name::Ip(text) => text.parse().ok(),
            _ => None,
        }
    }

    fn of(json: &Json<'_>) -> Option<Name> {
        type OfText = fn(String) -> Name;
        let kinds: [(&str, OfText); 5] =
            [("dns", Name::Dns), ("email", Name::Email), ("uri", Name::Uri), ("ip", Name::Ip), ("oid", Name::Oid)];
        for (key, name) in kinds {
            if let Some(text) = json.optional(key, Json::text)? {
                return Some(name(text));
            }
        }
        Value::of(json).map(Name::Other)
    }
}

impl fmt::Display for Name {
    fn fmt(&self, f: &mut fmt::Formatter<'_>) -> fmt::Result {
        match self {
            Name::Dns(text) | Name::Email(text) | Name::Uri(text) | Name::Ip(text) | Name::Oid(text) => {
                f.write_str(text)
            }
            Name::Other(value) => value.fmt(f),
        }
    }
}

/// An extension. What stands in a value in DER is in one of the lists, and in all others nothing.
#[derive(Clone, Debug, PartialEq, Eq, Hash)]
#[non_exhaustive]
pub struct Extension {
    /// Its arcs.
    pub identifier: String,
    /// Its usual name.
    pub name: Option<String>,
    pub critical: bool,
    /// Its place, in octets from the request's start.
    pub at: u64,
    /// What its value is as one of its type; `None` where the type isn't known.
    pub verdict: Option<Carried>,
    /// Of a subjectAltName or an issuerAltName.
    pub names: Vec<Name>,
    /// Of a keyUsage the names of the bits that are 1.
    pub bits: Vec<String>,
    /// Of any other its primitive elements.
    pub values: Vec<Value>,
}

impl Extension {
    fn of(json: &Json<'_>) -> Option<Extension> {
        Some(Extension {
            identifier: json.member("identifier", Json::text)?,
            name: json.optional("name", Json::text)?,
            critical: json.member("critical", Json::boolean)?,
            at: json.member("at", Json::number)?,
            verdict: json.optional("carries", Carried::of)?,
            names: json.members("names", Name::of)?,
            bits: json.members("bits", Json::text)?,
            values: json.members("values", Value::of)?,
        })
    }
}

/// What a request asks for, in the order of the file; its signature isn't verified.
///
/// The error of its methods is `Error::Untold`: the value of the extension isn't in DER, or the request has it twice.
#[derive(Clone, Debug, PartialEq, Eq, Hash)]
#[non_exhaustive]
pub struct Asks {
    /// A list for each relative name.
    pub subject: Vec<Vec<NameAttribute>>,
    pub key: Key,
    pub signature: Algorithm,
    /// The names of its attributes but extensionRequest, whose values aren't told.
    pub attributes: Vec<String>,
    /// What extensionRequest has.
    pub extensions: Vec<Extension>,
}

impl Asks {
    /// Of the member `asks` of a report.
    pub(crate) fn of(json: &Json<'_>) -> Option<Asks> {
        Some(Asks {
            subject: json.member("subject", |it| it.list(|it| it.list(NameAttribute::of)))?,
            key: json.member("key", Key::of)?,
            signature: json.member("signature", Algorithm::of)?,
            attributes: json.member("attributes", |it| it.list(Json::text))?,
            extensions: json.member("extensions", |it| it.list(Extension::of))?,
        })
    }

    /// The names of the subjectAltName, of whatever kind; none where it isn't there.
    pub fn san(&self) -> Result<&[Name], Error> {
        Ok(self.one("subjectAltName")?.map_or(&[], |it| &it.names))
    }

    /// Those names of the subjectAltName that are `Name::Dns`: `san` has the others.
    pub fn dns(&self) -> Result<Vec<&str>, Error> {
        let dns = self.san()?.iter().filter_map(|it| match it {
            Name::Dns(text) => Some(text.as_str()),
            _ => None,
        });
        Ok(dns.collect())
    }

    /// The names of the bits of the keyUsage that are 1; none where it isn't there.
    pub fn key_usage(&self) -> Result<&[String], Error> {
        Ok(self.one("keyUsage")?.map_or(&[], |it| &it.bits))
    }

    /// The purposes of the extKeyUsage by their usual names, else by their arcs; none where it isn't there.
    pub fn extended_key_usage(&self) -> Result<Vec<String>, Error> {
        Ok(self.values("extKeyUsage")?.iter().map(Value::to_string).collect())
    }

    /// Whether the basicConstraints has cA TRUE; `false` where it isn't there.
    pub fn is_ca(&self) -> Result<bool, Error> {
        let is_true = |it: &Value| it.field.as_deref() == Some("cA") && it.boolean == Some(true);
        Ok(self.values("basicConstraints")?.iter().any(is_true))
    }

    fn values(&self, name: &str) -> Result<&[Value], Error> {
        Ok(self.one(name)?.map_or(&[], |it| &it.values))
    }

    /// The extension of this name, if it is there.
    fn one(&self, name: &str) -> Result<Option<&Extension>, Error> {
        let mut found = self.extensions.iter().filter(|it| it.name.as_deref() == Some(name));
        match (found.next(), found.next()) {
            (None, _) => Ok(None),
            (Some(it), None) if it.verdict == Some(Carried::Der) => Ok(Some(it)),
            _ => Err(Error::Untold),
        }
    }
}

#[cfg(test)]
mod tests {
    use super::{Asks, Json, Name, Value};
    use crate::holds::Holds;
    use crate::Error;

    fn asks(text: &str) -> Option<Asks> {
        Json::read(text)?.member("asks", Asks::of)
    }

    fn holds(text: &str) -> Option<Holds> {
        Json::read(text)?.member("holds", Holds::of)
    }

    /// Names of other kinds, values that are no strings, types that aren't known, and keys of a later library.
    const TEXT: &str = r#"{"form":1,"later":[-1.5,null],"asks":{
        "subject":[[{"identifier":"1.2.3","value":{"integer":5}}]],"key":{"algorithm":"1.2.4","later":0},
        "signature":{"algorithm":"1.2.5"},"attributes":["1.2.6"],"extensions":[
        {"identifier":"2.5.29.17","name":"subjectAltName","critical":true,"at":9,"carries":{"verdict":"der"},
        "names":[{"field":"type","value":{"identifier":"2.5.4.3","name":"commonName"}},{"field":"value","text":"x"},
        {"dns":""},{"email":"a@b"},{"uri":"u:"},{"oid":"1.2"},{"ip":"0102030405"},{"ip":"2001:0db8:0:0:0:0:0:1"}]},
        {"identifier":"2.5.29.37","name":"extKeyUsage","critical":true,"at":9,"carries":{"verdict":"der"},
        "values":[{"value":{"identifier":"1.2.8"}}]},
        {"identifier":"1.2.7","critical":true,"at":9,"values":[]}]}}"#;

    #[test]
    fn asked_by_text() {
        let asked = asks(TEXT).unwrap();
        let attribute = &asked.subject[0][0];
        assert_eq!((&attribute.text, attribute.value.as_ref().unwrap().integer), (&None, Some(5)));
        let said: Vec<_> = asked.san().unwrap().iter().map(Name::to_string).collect();
        let due = ["commonName", "x", "", "a@b", "u:", "1.2", "0102030405", "2001:0db8:0:0:0:0:0:1"];
        assert_eq!(said, due);
        assert_eq!(asked.san().unwrap()[2..4], [Name::Dns(String::new()), Name::Email("a@b".to_owned())]);
        let addresses: Vec<_> = asked.san().unwrap().iter().filter_map(Name::address).collect();
        assert_eq!(addresses, ["2001:db8::1".parse::<std::net::IpAddr>().unwrap()]);
        assert_eq!((asked.dns(), asked.extended_key_usage()), (Ok(vec![""]), Ok(vec!["1.2.8".to_owned()])));
        assert_eq!((asked.key_usage(), asked.is_ca()), (Ok(&[][..]), Ok(false)));
        let last = &asked.extensions[2];
        assert_eq!((&last.name, last.verdict, last.critical, last.at), (&None, None, true, 9));
    }

    #[test]
    fn what_cannot_be_told() {
        for (before, after) in [(r#""der""#, r#""not_der""#), (r#","carries":{"verdict":"der"}"#, "")] {
            let asked = asks(&TEXT.replace(before, after)).unwrap();
            assert_eq!((asked.dns(), asked.extended_key_usage()), (Err(Error::Untold), Err(Error::Untold)));
        }
        assert_eq!(asks(&TEXT.replace("extKeyUsage", "subjectAltName")).unwrap().san(), Err(Error::Untold));
    }

    #[test]
    fn reports_of_another_library() {
        for (before, after) in [
            (r#""critical":true,"#, ""),
            (r#""at":9"#, r#""at":-9"#),
            (r#""at":9"#, r#""at":"9""#),
            (r#""der""#, r#""later""#),
            (r#"{"dns":""}"#, r#"{"dns":null}"#),
            (r#"{"integer":5}"#, "5"),
            (r#"["1.2.6"]"#, "[6]"),
            (r#""attributes":["1.2.6"],"#, ""),
            (r#"{"algorithm":"1.2.5"}"#, "{}"),
            ("]}}", "]}"),
        ] {
            assert!(TEXT.contains(before), "{before}");
            assert_eq!(asks(&TEXT.replace(before, after)), None, "{after}");
        }
        for text in ["", "{}", "[]", r#"{"asks":{"subject":1}}"#, r#"{"asks":null}"#] {
            assert_eq!(asks(text), None, "{text}");
        }
        for text in ["", "{}", r#"{"holds":1}"#, r#"{"holds":{"encryption":{"numbers":["x"],"algorithms":[]}}}"#] {
            assert_eq!(holds(text), None, "{text}");
        }
        assert_eq!(holds(r#"{"holds":{"encryption":{"numbers":["+1"],"algorithms":[]}}}"#), None);
        let held = holds(r#"{"holds":{"encryption":{"numbers":["07"],"algorithms":["1.2"]}}}"#).unwrap();
        assert_eq!((held.key, held.numbers, held.algorithms), (None, vec![7], vec!["1.2".to_owned()]));
    }

    #[test]
    fn values_as_text() {
        let said = |text: &str| Json::read(text).and_then(|it| Value::of(&it)).unwrap().to_string();
        assert_eq!(said(r#"{"text":"a","value":{"name":"b"}}"#), "a");
        assert_eq!(said(r#"{"value":{"octets":2,"hexadecimal":"00ff"}}"#), "00ff");
        assert_eq!([r#"{"value":{"integer":0}}"#, r#"{"value":{"boolean":true}}"#].map(said), ["0", "true"]);
        assert_eq!(said(r#"{"field":"a","value":{"null":true,"octets":0}}"#), "");
    }
}
