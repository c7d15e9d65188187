//! The few forms of JSON that the command prints.

use std::fmt;

/// A text as a JSON string.
pub struct Quoted<'a>(pub &'a str);

impl fmt::Display for Quoted<'_> {
    fn fmt(&self, f: &mut fmt::Formatter<'_>) -> fmt::Result {
        f.write_str("\"")?;
        for c in self.0.chars() {
            match c {
                '"' => f.write_str("\\\"")?,
                '\\' => f.write_str("\\\\")?,
                c if c < ' ' => write!(f, "\\u{:04x}", u32::from(c))?,
                c => write!(f, "{c}")?,
            }
        }
        f.write_str("\"")
    }
}

/// Texts that are JSON values, as a list.
pub fn list(values: &[String]) -> String {
    format!("[{}]", values.join(","))
}

/// Names with texts, as an object of strings.
pub fn object<'a>(pairs: impl Iterator<Item = (String, &'a str)>) -> String {
    let pairs: Vec<String> = pairs.map(|(name, text)| format!("{}:{}", Quoted(&name), Quoted(text))).collect();
    format!("{{{}}}", pairs.join(","))
}

#[cfg(test)]
mod tests {
    use super::*;

    #[test]
    fn every_character_is_escaped_as_json_wants_it() {
        assert_eq!(Quoted("a\"b\\c\n\u{1}\u{7f}é").to_string(), "\"a\\\"b\\\\c\\u000a\\u0001\u{7f}é\"");
        assert_eq!(object([("a".into(), "1"), ("\"".into(), "")].into_iter()), r#"{"a":"1","\"":""}"#);
        assert_eq!(list(&["1".into(), "{}".into()]), "[1,{}]");
    }
}
