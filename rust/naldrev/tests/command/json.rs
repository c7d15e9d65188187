//! A small reader of JSON, which takes nothing that is none.

use std::collections::BTreeMap;

#[derive(Clone, Debug, PartialEq)]
pub enum Json {
    Null,
    Bool(bool),
    Text(String),
    List(Vec<Json>),
    Object(BTreeMap<String, Json>),
}

/// Reads one value and a line end; panics if the text is anything else.
#[track_caller]
pub fn read(text: &str) -> Json {
    let mut reader = Reader { rest: text.strip_suffix('\n').expect("a line end") };
    let value = reader.value();
    assert_eq!(reader.rest, "", "what follows the value in {text}");
    value
}

struct Reader<'a> {
    rest: &'a str,
}

impl Reader<'_> {
    fn takes(&mut self, text: &str) -> bool {
        let rest = self.rest.strip_prefix(text);
        self.rest = rest.unwrap_or(self.rest);
        rest.is_some()
    }

    fn wants(&mut self, text: &str) {
        assert!(self.takes(text), "expected {text} at {}", self.rest);
    }

    fn value(&mut self) -> Json {
        match self.rest.as_bytes()[0] {
            b'n' => {
                self.wants("null");
                Json::Null
            }
            b't' => {
                self.wants("true");
                Json::Bool(true)
            }
            b'f' => {
                self.wants("false");
                Json::Bool(false)
            }
            b'"' => Json::Text(self.text()),
            b'[' => Json::List(self.parts("[", "]", Reader::value)),
            _ => {
                let pairs = self.parts("{", "}", |reader| {
                    let name = reader.text();
                    reader.wants(":");
                    (name, reader.value())
                });
                let count = pairs.len();
                let object: BTreeMap<String, Json> = pairs.into_iter().collect();
                assert_eq!(object.len(), count, "a name comes twice");
                Json::Object(object)
            }
        }
    }

    fn parts<T>(&mut self, open: &str, close: &str, part: impl Fn(&mut Self) -> T) -> Vec<T> {
        self.wants(open);
        let mut parts = Vec::new();
        while !self.takes(close) {
            if !parts.is_empty() {
                self.wants(",");
            }
            parts.push(part(self));
        }
        parts
    }

    fn text(&mut self) -> String {
        self.wants("\"");
        let mut text = String::new();
        loop {
            let c = self.rest.chars().next().expect("the end of a string");
            self.rest = &self.rest[c.len_utf8()..];
            match c {
                '"' => return text,
                '\\' => text.push(self.escape()),
                c => {
                    assert!(c >= ' ', "a control character in a string");
                    text.push(c);
                }
            }
        }
    }

    fn escape(&mut self) -> char {
        let simple = [("\"", '"'), ("\\", '\\'), ("/", '/'), ("b", '\u{8}'), ("f", '\u{c}'), ("n", '\n'), ("r", '\r'), ("t", '\t')];
        for (text, c) in simple {
            if self.takes(text) {
                return c;
            }
        }
        self.wants("u");
        let (digits, rest) = self.rest.split_at(4);
        self.rest = rest;
        char::from_u32(u32::from_str_radix(digits, 16).unwrap()).unwrap()
    }
}

#[test]
fn the_reader_takes_json_alone() {
    let object = Json::Object([("a\n".to_string(), Json::List(vec![Json::Bool(true), Json::Null]))].into());
    assert_eq!(read("{\"a\\u000a\":[true,null]}\n"), object);
    for bad in ["[1]\n", "[true,]\n", "{\"a\":true,\"a\":true}\n", "\"\t\"\n", "true true\n", "true"] {
        assert!(std::panic::catch_unwind(|| read(bad)).is_err(), "{bad}");
    }
}
