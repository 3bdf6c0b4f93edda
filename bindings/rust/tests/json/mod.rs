//! JSON as tests/conformance.json has it: texts without escapes, whole numbers, lists and objects.
use std::collections::BTreeMap;

#[derive(Clone, Debug, PartialEq)]
pub enum Json {
    Text(String),
    Whole(usize),
    List(Vec<Json>),
    Object(BTreeMap<String, Json>),
}

impl Json {
    pub fn read(text: &str) -> Json {
        let mut reader = Reader { text, place: 0 };
        reader.value()
    }

    pub fn text(words: impl Into<String>) -> Json {
        Json::Text(words.into())
    }

    pub fn object<const N: usize>(fields: [(&str, Json); N]) -> Json {
        Json::Object(
            fields
                .into_iter()
                .map(|(name, value)| (name.to_string(), value))
                .collect(),
        )
    }

    pub fn get(&self, name: &str) -> Option<&Json> {
        match self {
            Json::Object(fields) => fields.get(name),
            _ => None,
        }
    }

    pub fn at(&self, name: &str) -> &Json {
        self.get(name)
            .unwrap_or_else(|| panic!("no {name} in {self:?}"))
    }

    pub fn words(&self) -> &str {
        match self {
            Json::Text(words) => words,
            other => panic!("no text: {other:?}"),
        }
    }

    pub fn whole(&self) -> usize {
        match self {
            Json::Whole(number) => *number,
            other => panic!("no whole number: {other:?}"),
        }
    }

    pub fn list(&self) -> &[Json] {
        match self {
            Json::List(values) => values,
            other => panic!("no list: {other:?}"),
        }
    }
}

struct Reader<'a> {
    text: &'a str,
    place: usize,
}

impl Reader<'_> {
    /// The next byte that is no blank.
    fn next(&mut self) -> u8 {
        let bytes = self.text.as_bytes();
        while matches!(bytes[self.place], b' ' | b'\n') {
            self.place += 1;
        }
        bytes[self.place]
    }

    /// Whether the next byte is this one, which is taken then.
    fn took(&mut self, byte: u8) -> bool {
        let is = self.next() == byte;
        self.place += usize::from(is);
        is
    }

    fn take(&mut self, byte: u8) {
        assert!(
            self.took(byte),
            "byte {} of the file is not read",
            self.place
        );
    }

    fn value(&mut self) -> Json {
        match self.next() {
            b'"' => Json::Text(self.words()),
            b'[' => self.list(),
            b'{' => self.object(),
            _ => self.number(),
        }
    }

    fn words(&mut self) -> String {
        self.take(b'"');
        let rest = &self.text[self.place..];
        let end = rest.find('"').expect("a text ends");
        self.place += end + 1;
        rest[..end].to_string()
    }

    fn number(&mut self) -> Json {
        let rest = &self.text[self.place..];
        let end = rest
            .find(|letter: char| !letter.is_ascii_digit())
            .unwrap_or(rest.len());
        self.place += end;
        Json::Whole(rest[..end].parse().expect("a whole number"))
    }

    fn list(&mut self) -> Json {
        let mut values = Vec::new();
        self.take(b'[');
        while !self.took(b']') {
            values.push(self.value());
            if self.next() != b']' {
                self.take(b',');
            }
        }
        Json::List(values)
    }

    fn object(&mut self) -> Json {
        let mut fields = BTreeMap::new();
        self.take(b'{');
        while !self.took(b'}') {
            let name = self.words();
            self.take(b':');
            fields.insert(name, self.value());
            if self.next() != b'}' {
                self.take(b',');
            }
        }
        Json::Object(fields)
    }
}
