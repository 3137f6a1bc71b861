//! JSON (RFC 8259), as far as reports of the library take it: no key stands twice in an object, no half of a character
//! by itself in a text, and lists and objects are nested to a limit.

/// How deep lists and objects may be nested; those of reports are 7 deep.
const DEPTH: usize = 32;

pub(crate) enum Json<'a> {
    Null,
    Boolean(bool),
    /// By its characters.
    Number(&'a str),
    Text(String),
    List(Vec<Json<'a>>),
    /// In the order of its keys.
    Object(Vec<(String, Json<'a>)>),
}

/// What the value has to be is read of it; `None` where it is another one.
impl<'a> Json<'a> {
    /// The value that the text is, the whole of it; `None` where it is none.
    pub(crate) fn read(text: &'a str) -> Option<Json<'a>> {
        let mut reader = Reader { left: text };
        let found = reader.value(DEPTH)?;
        reader.blanks();
        reader.left.is_empty().then_some(found)
    }

    /// The member of this key, which has to be there.
    pub(crate) fn member<T>(&self, key: &str, of: impl Fn(&Json<'a>) -> Option<T>) -> Option<T> {
        self.optional(key, of)?
    }

    /// The member of this key, if it is there.
    pub(crate) fn optional<T>(&self, key: &str, of: impl Fn(&Json<'a>) -> Option<T>) -> Option<Option<T>> {
        match self {
            Json::Object(members) => match members.binary_search_by(|it| it.0.as_str().cmp(key)) {
                Ok(at) => of(&members[at].1).map(Some),
                Err(_) => Some(None),
            },
            _ => None,
        }
    }

    /// The list that is the member of this key; an empty one where it isn't there.
    pub(crate) fn members<T>(&self, key: &str, of: impl Fn(&Json<'a>) -> Option<T>) -> Option<Vec<T>> {
        self.optional(key, |it| it.list(&of)).map(Option::unwrap_or_default)
    }

    pub(crate) fn list<T>(&self, of: impl Fn(&Json<'a>) -> Option<T>) -> Option<Vec<T>> {
        match self {
            Json::List(items) => items.iter().map(of).collect(),
            _ => None,
        }
    }

    pub(crate) fn text(&self) -> Option<String> {
        match self {
            Json::Text(text) => Some(text.clone()),
            _ => None,
        }
    }

    pub(crate) fn boolean(&self) -> Option<bool> {
        match self {
            Json::Boolean(is_true) => Some(*is_true),
            _ => None,
        }
    }

    /// A number that isn't negative, without a fraction or an exponent.
    pub(crate) fn number(&self) -> Option<u64> {
        match self {
            Json::Number(characters) => digits(characters),
            _ => None,
        }
    }
}

/// The number of decimal digits.
pub(crate) fn digits(text: &str) -> Option<u64> {
    // (`parse` takes a sign)
    text.bytes().all(|it| it.is_ascii_digit()).then(|| text.parse().ok())?
}

struct Reader<'a> {
    left: &'a str,
}

impl<'a> Reader<'a> {
    /// A value, in which lists and objects are nested to this depth.
    fn value(&mut self, depth: usize) -> Option<Json<'a>> {
        self.blanks();
        match self.left.bytes().next()? {
            b'{' => self.object(depth.checked_sub(1)?),
            b'[' => self.list(depth.checked_sub(1)?),
            b'"' => self.text().map(Json::Text),
            b't' => self.take("true").map(|()| Json::Boolean(true)),
            b'f' => self.take("false").map(|()| Json::Boolean(false)),
            b'n' => self.take("null").map(|()| Json::Null),
            _ => self.number(),
        }
    }

    fn object(&mut self, depth: usize) -> Option<Json<'a>> {
        let mut members = Vec::new();
        self.each("{", "}", |reader| {
            reader.blanks();
            let key = reader.text()?;
            reader.blanks();
            reader.take(":")?;
            members.push((key, reader.value(depth)?));
            Some(())
        })?;
        members.sort_by(|one, other| one.0.cmp(&other.0));
        // (nearly all objects are small, and there may be many)
        members.shrink_to_fit();
        members.windows(2).all(|it| it[0].0 != it[1].0).then_some(Json::Object(members))
    }

    fn list(&mut self, depth: usize) -> Option<Json<'a>> {
        let mut items = Vec::new();
        self.each("[", "]", |reader| {
            items.push(reader.value(depth)?);
            Some(())
        })?;
        Some(Json::List(items))
    }

    /// What stands between these, with commas between.
    fn each(&mut self, begin: &str, end: &str, mut item: impl FnMut(&mut Self) -> Option<()>) -> Option<()> {
        self.take(begin)?;
        self.blanks();
        if self.take(end).is_some() {
            return Some(());
        }
        loop {
            item(self)?;
            self.blanks();
            if self.take(end).is_some() {
                return Some(());
            }
            self.take(",")?;
        }
    }

    fn text(&mut self) -> Option<String> {
        self.take("\"")?;
        let mut text = String::new();
        loop {
            let (plain, left) = self.left.split_at(self.left.find(|it| it < ' ' || it == '"' || it == '\\')?);
            text.push_str(plain);
            self.left = left;
            if self.take("\"").is_some() {
                return Some(text);
            }
            self.take("\\")?;
            text.push(self.escaped()?);
        }
    }

    /// The character of what stands after a backslash.
    fn escaped(&mut self) -> Option<char> {
        let mut characters = self.left.chars();
        let letter = characters.next()?;
        self.left = characters.as_str();
        match letter {
            '"' | '\\' | '/' => Some(letter),
            'b' => Some('\u{8}'),
            'f' => Some('\u{c}'),
            'n' => Some('\n'),
            'r' => Some('\r'),
            't' => Some('\t'),
            'u' => self.character(),
            _ => None,
        }
    }

    /// The character of a unit of UTF-16, or of two.
    fn character(&mut self) -> Option<char> {
        let first = self.unit()?;
        if !(0xD800..0xDC00).contains(&first) {
            return char::from_u32(first.into());
        }
        self.take("\\u")?;
        char::decode_utf16([first, self.unit()?]).next()?.ok()
    }

    /// The unit of four hexadecimal digits.
    fn unit(&mut self) -> Option<u16> {
        let digits = self.left.get(..4)?;
        self.left = &self.left[4..];
        // (`from_str_radix` takes a sign)
        digits.bytes().all(|it| it.is_ascii_hexdigit()).then(|| u16::from_str_radix(digits, 16).ok())?
    }

    fn number(&mut self) -> Option<Json<'a>> {
        let start = self.left;
        self.take_one(&["-"]);
        if !self.take_one(&["0"]) {
            self.digits()?;
        }
        if self.take_one(&["."]) {
            self.digits()?;
        }
        if self.take_one(&["e", "E"]) {
            self.take_one(&["+", "-"]);
            self.digits()?;
        }
        Some(Json::Number(&start[..start.len() - self.left.len()]))
    }

    fn digits(&mut self) -> Option<()> {
        let left = self.left.trim_start_matches(|it: char| it.is_ascii_digit());
        let has_some = left.len() < self.left.len();
        self.left = left;
        has_some.then_some(())
    }

    fn blanks(&mut self) {
        self.left = self.left.trim_start_matches(&[' ', '\t', '\n', '\r'][..]);
    }

    fn take(&mut self, due: &str) -> Option<()> {
        self.left = self.left.strip_prefix(due)?;
        Some(())
    }

    /// Whether one of these stands here, and is taken.
    fn take_one(&mut self, due: &[&str]) -> bool {
        due.iter().any(|it| self.take(it).is_some())
    }
}

#[cfg(test)]
mod tests {
    use super::{Json, DEPTH};

    /// The value in words: keys in order, and texts as Rust writes them.
    fn words(json: &Json<'_>) -> String {
        match json {
            Json::Null => "null".to_owned(),
            Json::Boolean(is_true) => is_true.to_string(),
            Json::Number(characters) => (*characters).to_owned(),
            Json::Text(text) => format!("{text:?}"),
            Json::List(items) => format!("[{}]", items.iter().map(words).collect::<Vec<_>>().join(",")),
            Json::Object(members) => {
                let found: Vec<_> = members.iter().map(|(key, it)| format!("{key:?}:{}", words(it))).collect();
                format!("{{{}}}", found.join(","))
            }
        }
    }

    #[test]
    fn values() {
        for (text, due) in [
            (" { \"a\" : [ 1 , true ,\tfalse,\r\nnull ] , \"\" : { } } ", "{\"\":{},\"a\":[1,true,false,null]}"),
            ("[]", "[]"),
            ("[-0,0.50,1e9,10E-2,18446744073709551616]", "[-0,0.50,1e9,10E-2,18446744073709551616]"),
            (r#""\"\\\/\b\f\n\r\t\u0041\u00e9\uD83D\ude00""#, r#""\"\\/\u{8}\u{c}\n\r\tAé😀""#),
            ("\"Müller \u{7f}\"", "\"Müller \\u{7f}\""),
        ] {
            assert_eq!(Json::read(text).map(|it| words(&it)).as_deref(), Some(due), "{text}");
        }
    }

    #[test]
    fn texts_that_are_no_value() {
        let lists = r#"{ [ ] [1 [1, [1,] [,1] [1;2] {"a"} {"a":} {"a":1,} {,} {a:1} {1:1} {}{} {"a":1,"\u0061":2}"#;
        let scalars = r#"tru True nulll 01 - +1 .5 1. 1e 1e+ 0x1 1.e1 NaN ١ 'a' 1,"#;
        let texts = r#"" "\x" "\ "\u" "\u12g4" "\u+123" "\u00é" "\ud800" "\udc00" "\ud800\u0041" "\ud800x" "\u{41}""#;
        let others = ["", " ", "[1 2]", "1 2", "t rue", "\"\n\"", "\"\u{1f}\"", "\u{feff}1", "\u{a0}1", "1\u{0}"];
        for text in [lists, scalars, texts].iter().flat_map(|it| it.split(' ')).chain(others) {
            assert!(Json::read(text).is_none(), "{text}");
        }
    }

    #[test]
    fn depth() {
        let nested = |depth: usize| "[".repeat(depth) + &"]".repeat(depth);
        assert!(Json::read(&nested(DEPTH)).is_some());
        assert!(Json::read(&nested(DEPTH + 1)).is_none());
        assert!(Json::read(&"[".repeat(1_000_000)).is_none());
        assert!(Json::read(&"{\"\":".repeat(1_000_000)).is_none());
    }

    #[test]
    fn numbers() {
        let number = |text: &str| Json::read(text).and_then(|it| it.number());
        assert_eq!(number("18446744073709551615"), Some(u64::MAX));
        for text in ["18446744073709551616", "-1", "-0", "1.0", "1e0", "\"1\"", "true"] {
            assert_eq!(number(text), None, "{text}");
        }
        assert_eq!(["", "+1", "1 ", "7"].map(super::digits), [None, None, None, Some(7)]);
    }

    /// Each text with one octet left out, doubled or made another one is read, or isn't, and nothing else happens.
    #[test]
    fn texts_that_are_nearly_values() {
        let whole = r#"{"a":[{"b":"\ud83d\ude00é\n","c":-1.5e+3},true,null],"d":{}}"#.as_bytes();
        assert!(Json::read(std::str::from_utf8(whole).unwrap()).is_some());
        for at in 0..whole.len() {
            let (before, after) = (&whole[..at], &whole[at + 1..]);
            for there in [vec![], vec![whole[at]; 2], vec![b'"'], vec![b'\\'], vec![b'{'], vec![b'9'], vec![0]] {
                let text = [before, &there, after].concat();
                let _ = Json::read(&String::from_utf8_lossy(&text));
                let _ = Json::read(&String::from_utf8_lossy(before));
            }
        }
    }
}
