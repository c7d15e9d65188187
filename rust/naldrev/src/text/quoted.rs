//! Characters in quotes.

use super::word::shown;

/// The escapes of one letter, with the characters that they stand for.
const ESCAPES: [(char, char); 10] =
    [('n', '\n'), ('t', '\t'), ('r', '\r'), ('\\', '\\'), ('\'', '\''), ('"', '"'), ('(', '('), (')', ')'), ('<', '<'), ('>', '>')];
/// The hexadecimal digits of `\xHH`.
const SHORT: usize = 2;
/// The most hexadecimal digits of `\x{H..}`.
const LONG: usize = 6;

pub(super) enum Wrong {
    /// The line or the text ends inside the quotes.
    Unclosed,
    /// An escape that is none, and why.
    Escape(String),
}

/// The next character of a text in quotes, or nothing for the closing quote, with how many bytes it is written in.
pub(super) fn next(rest: &str) -> Result<(Option<char>, usize), Wrong> {
    match rest.chars().next() {
        None | Some('\n' | '\r') => Err(Wrong::Unclosed),
        Some('\'') if rest.starts_with("''") => Ok((Some('\''), 2)),
        Some('\'') => Ok((None, 1)),
        Some('\\') => escape(rest),
        Some(c) => Ok((Some(c), c.len_utf8())),
    }
}

fn escape(rest: &str) -> Result<(Option<char>, usize), Wrong> {
    match rest.chars().nth(1) {
        None | Some('\n' | '\r') => Err(Wrong::Unclosed),
        Some('x') => numbered(rest),
        Some(letter) => match ESCAPES.iter().find(|known| known.0 == letter) {
            Some((_, c)) => Ok((Some(*c), 2)),
            None => Err(no_escape(&rest[..1 + letter.len_utf8()])),
        },
    }
}

/// An escape by the number of a character, `\xHH` or `\x{H..}`.
fn numbered(rest: &str) -> Result<(Option<char>, usize), Wrong> {
    let braced = rest.starts_with("\\x{");
    let start = if braced { "\\x{".len() } else { "\\x".len() };
    let most = if braced { LONG } else { SHORT };
    let digits = rest[start..].bytes().take(most).take_while(u8::is_ascii_hexdigit).count();
    let end = start + digits;
    let whole = if braced { digits > 0 && rest[end..].starts_with('}') } else { digits == SHORT };
    if !whole {
        return Err(no_escape(&rest[..end]));
    }
    let length = end + usize::from(braced);
    match u32::from_str_radix(&rest[start..end], 16).ok().and_then(char::from_u32) {
        Some(c) => Ok((Some(c), length)),
        None => Err(Wrong::Escape(format!("{} is no Unicode character (0 to D7FF, E000 to 10FFFF)", &rest[..length]))),
    }
}

fn no_escape(written: &str) -> Wrong {
    let known: String = ESCAPES.iter().map(|(letter, _)| format!("\\{letter} ")).collect();
    Wrong::Escape(format!("{} is no escape; in quotes there are {known}\\xHH and \\x{{H..}}, H being a hexadecimal digit", shown(written)))
}
