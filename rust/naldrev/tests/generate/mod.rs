//! Random terms, patterns and sentences, and random ways of writing and damaging them.

use naldrev::{Expression, Item, Pattern, Sentence, UnknownKind, Value, Variable, VariableKind};

/// What may stand between two tokens on one line.
pub const GAPS: [&str; 5] = [" ", "\t", "  ", "/* 'x' ( */", " /**/ "];
/// What may stand between any two tokens.
pub const BREAKS: [&str; 7] = [" ", "\t", "\n", "\r\n", "/*\n* ' */", "\n* a comment ' (\n", " /**/\n"];

const NAME: &[u8] = b"abcdestxyzSTEABZ0123456789-_";
/// How many of `NAME` are letters.
const LETTERS: usize = 16;
const TRICKY: [char; 16] = ['\'', '\\', '\n', '\t', '\r', '"', '(', ')', '*', '/', '\0', '\u{A0}', '\u{301}', '\u{FEFF}', 'é', '€'];
/// What damage puts in.
const SPLINTERS: [&str; 30] = [
    "'", "''", "\"", "(", ")", "<", ">", "{", "}", "=", ";", ",", ":", "/*", "*/", "\n*", "\n", "\n\n", "\r", "s.", "e.1", "s1", "?",
    "?s.1.2", "\\", "\\x{", ".", "-5", "é", "\u{A0}",
];
const RIGHTS: [&str; 6] = [
    "",
    "s.1",
    "<Price s.energy '; = )' 25>",
    "{ A = 1; e.x = (2); }",
    "<+ s.1 3> { s.1 , <F e.1> : { ; } }",
    "'}' /* ; */ e.1e.2 ' '' ;' - 5 * 6 % 7 / 8 ? ,",
];
/// The limits of a pattern: records, different variables, depth.
const RECORDS: usize = 256;
const VARIABLES: usize = 64;
const NESTING: usize = 32;

/// A xorshift generator.
pub struct Random(u64);

/// A tree as the parts of its text.
#[derive(Clone)]
pub enum Token {
    Char(char),
    Word(String),
    Open,
    Close,
}

/// A part of a tree: a bracket's contents, or the part's only token.
pub trait Part: Sized {
    fn contents(&self) -> Result<&[Self], Token>;
}

impl Part for Value {
    fn contents(&self) -> Result<&[Value], Token> {
        match self {
            Value::Bracket(contents) => Ok(contents),
            Value::Char(c) => Err(Token::Char(*c)),
            Value::Identifier(word) | Value::Number(word) => Err(Token::Word(word.clone())),
            Value::Unknown { kind, level, index } => {
                let letter = match kind {
                    UnknownKind::Symbol => 's',
                    UnknownKind::Term => 't',
                    UnknownKind::Expression => 'e',
                };
                Err(Token::Word(format!("?{letter}.{level}.{index}")))
            }
        }
    }
}

impl Part for Item {
    fn contents(&self) -> Result<&[Item], Token> {
        match self {
            Item::Bracket(contents) => Ok(contents),
            Item::Char(c) => Err(Token::Char(*c)),
            Item::Identifier(word) | Item::Number(word) => Err(Token::Word(word.clone())),
            Item::Variable(Variable { kind, name }) => {
                let letter = match kind {
                    VariableKind::S => 's',
                    VariableKind::T => 't',
                    VariableKind::E => 'e',
                };
                Err(Token::Word(format!("{letter}.{name}")))
            }
            Item::Call => Err(Token::Word("< Round ('>' s.1 + 2) {;} >".into())),
            Item::Block => Err(Token::Word("{ e.1 = '}' <F>; }".into())),
        }
    }
}

pub fn tokens<T: Part>(parts: &[T]) -> Vec<Token> {
    let mut found = Vec::new();
    for part in parts {
        match part.contents() {
            Err(token) => found.push(token),
            Ok(contents) => {
                found.push(Token::Open);
                found.extend(tokens(contents));
                found.push(Token::Close);
            }
        }
    }
    found
}

impl Random {
    pub fn new(seed: u64) -> Random {
        let mut random = Random(seed.wrapping_mul(0x9E37_79B9_7F4A_7C15) | 1);
        random.below(2);
        random
    }

    pub fn below(&mut self, limit: usize) -> usize {
        self.0 ^= self.0 << 13;
        self.0 ^= self.0 >> 7;
        self.0 ^= self.0 << 17;
        (self.0 >> 16) as usize % limit
    }

    pub fn pick<'a>(&mut self, from: &[&'a str]) -> &'a str {
        from[self.below(from.len())]
    }

    // ---- values ----

    fn char(&mut self) -> char {
        match self.below(4) {
            0 => TRICKY[self.below(TRICKY.len())],
            1 => char::from_u32(self.below(0x11_0000) as u32).unwrap_or('\u{D7FF}'),
            _ => char::from(b' ' + self.below(95) as u8),
        }
    }

    /// Mostly short, at times of the longest length.
    fn length(&mut self) -> usize {
        if self.below(100) == 0 {
            255
        } else {
            1 + self.below(8)
        }
    }

    fn name(&mut self) -> String {
        (0..self.length()).map(|_| char::from(NAME[self.below(NAME.len())])).collect()
    }

    fn identifier(&mut self) -> String {
        let mut word = self.name();
        word.replace_range(..1, &char::from(NAME[self.below(LETTERS)]).to_string());
        word
    }

    fn number(&mut self) -> String {
        (0..self.length()).map(|_| char::from(b'0' + self.below(10) as u8)).collect()
    }

    fn level(&mut self) -> u64 {
        [0, 1, 42, (1 << 32) - 1, 1 << 32, u64::MAX][self.below(6)]
    }

    fn index(&mut self) -> u32 {
        [0, 1, 42, u32::MAX][self.below(4)]
    }

    pub fn expression(&mut self) -> Expression {
        let count = self.below(12);
        let depth = if self.below(50) == 0 { 255 } else { 4 };
        (0..count).map(|_| self.value(depth)).collect()
    }

    /// An expression that is not empty.
    pub fn message(&mut self) -> Expression {
        let mut message = self.expression();
        message.0.push(Value::Identifier(self.identifier()));
        message
    }

    fn value(&mut self, depth: usize) -> Value {
        match self.below(9) {
            0..=3 => Value::Char(self.char()),
            4 => Value::Identifier(self.identifier()),
            5 => Value::Number(self.number()),
            6 => {
                let kind = [UnknownKind::Symbol, UnknownKind::Term, UnknownKind::Expression][self.below(3)];
                Value::Unknown { kind, level: self.level(), index: self.index() }
            }
            // One bracket in another, as deep as it goes.
            _ if depth > 4 => (0..depth).fold(Value::Char('x'), |inner, _| Value::Bracket(vec![inner])),
            _ if depth > 0 => Value::Bracket((0..self.below(4)).map(|_| self.value(depth - 1)).collect()),
            _ => Value::Bracket(Vec::new()),
        }
    }

    // ---- patterns ----

    pub fn variable(&mut self) -> Variable {
        let kind = [VariableKind::S, VariableKind::T, VariableKind::E][self.below(3)];
        Variable { kind, name: self.name() }
    }

    pub fn pattern(&mut self) -> Pattern {
        match self.below(60) {
            0 => (0..RECORDS).map(|_| Item::Char(self.char())).collect(),
            1 => (0..VARIABLES).map(|n| Item::Variable(naldrev::s(&n.to_string()))).collect(),
            2 => Pattern(vec![(0..NESTING).fold(Item::Call, |inner, _| Item::Bracket(vec![inner]))]),
            _ => (0..self.below(10)).map(|_| self.item(3)).collect(),
        }
    }

    fn item(&mut self, depth: usize) -> Item {
        match self.below(12) {
            0..=3 => Item::Char(self.char()),
            4 => Item::Identifier(self.pattern_identifier()),
            5 => Item::Number(self.number()),
            6..=8 => Item::Variable(self.variable()),
            9 => [Item::Call, Item::Block][self.below(2)].clone(),
            _ if depth > 0 => Item::Bracket((0..self.below(3)).map(|_| self.item(depth - 1)).collect()),
            _ => Item::Bracket(Vec::new()),
        }
    }

    /// An identifier that is not `s`, `t` or `e` and one letter or digit.
    fn pattern_identifier(&mut self) -> String {
        let word = self.identifier();
        if word.len() == 2 && word.starts_with(['s', 't', 'e']) {
            return word.to_ascii_uppercase();
        }
        word
    }

    /// Sentences as text, and what they have to be read as.
    pub fn sentences(&mut self) -> (String, Vec<Sentence>) {
        let mut text = String::new();
        let mut expected = Vec::new();
        for number in 0..self.below(4) {
            text += self.pick(&["", " ", "\n* x ;\n", "/* ; */"]);
            let line = 1 + text.matches('\n').count();
            let name = (self.below(2) == 0).then(|| format!("{}{number}", &self.identifier()[..1]));
            if let Some(name) = &name {
                text += &format!("{name}{}:", self.pick(&["", " ", "\n", "/**/"]));
            }
            let left: Pattern = (0..self.below(5)).map(|_| self.item(2)).filter(|item| !has_call(item)).collect();
            text += &self.write_inside(&tokens(&left), &BREAKS);
            if left.is_empty() || self.below(2) == 0 {
                text += &format!("= {}", self.pick(&RIGHTS));
            }
            text += ";";
            expected.push(Sentence { name, line, left });
        }
        (text, expected)
    }

    // ---- texts ----

    /// Tokens with anything before, between and after them.
    pub fn write(&mut self, tokens: &[Token], gaps: &[&str]) -> String {
        let before = self.pick(&["", " ", "* first\n", "\n"]);
        let after = self.pick(&["", "\n", "\n* last", "/**/"]);
        format!("{before}{}{after}", self.write_inside(tokens, gaps))
    }

    /// Tokens with anything between them. Two words need a gap, and so do two texts in quotes; elsewhere it may be missing.
    pub fn write_inside(&mut self, tokens: &[Token], gaps: &[&str]) -> String {
        let mut text = String::new();
        let mut quoted = false;
        for (at, token) in tokens.iter().enumerate() {
            let before = at.checked_sub(1).map(|before| &tokens[before]);
            let joined = quoted && matches!(token, Token::Char(_)) && self.below(3) > 0;
            if quoted && !joined {
                text.push('\'');
            }
            let needed = matches!((before, token), (Some(Token::Word(_)), Token::Word(_)) | (Some(Token::Char(_)), Token::Char(_)));
            if !joined && at > 0 && (needed || self.below(2) == 0) {
                text += self.pick(gaps);
            }
            quoted = matches!(token, Token::Char(_));
            match token {
                Token::Char(c) => {
                    text += if joined { "" } else { "'" };
                    text += &self.quoted(*c);
                }
                Token::Word(word) => text += word,
                Token::Open => text.push('('),
                Token::Close => text.push(')'),
            }
        }
        text + if quoted { "'" } else { "" }
    }

    fn quoted(&mut self, c: char) -> String {
        let by_number = format!("\\x{{{:x}}}", u32::from(c));
        match (c, self.below(3)) {
            ('\n', 0) => "\\n".into(),
            ('\r', 0) => "\\r".into(),
            ('\t', 0) => "\\t".into(),
            ('\n' | '\r', _) => by_number,
            ('\'', 0) => "''".into(),
            ('\'' | '\\' | '"' | '(' | ')' | '<' | '>', 1) => format!("\\{c}"),
            ('\'' | '\\', _) => by_number,
            ('\0'..='\u{FF}', 0) => format!("\\x{:02X}", u32::from(c)),
            (_, 0) => by_number,
            _ => c.into(),
        }
    }

    /// A text with a few characters or pieces put in, taken out or doubled.
    pub fn damage(&mut self, text: &str) -> String {
        let mut chars: Vec<char> = text.chars().collect();
        for _ in 0..1 + self.below(4) {
            let at = self.below(chars.len() + 1);
            let end = (at + self.below(3)).min(chars.len());
            match self.below(5) {
                0 => chars.truncate(at),
                1 => drop(chars.drain(at..end)),
                2 => {
                    let twice: Vec<char> = chars[at..end].to_vec();
                    chars.splice(at..at, twice);
                }
                _ => {
                    let splinter = self.pick(&SPLINTERS);
                    chars.splice(at..end, splinter.chars());
                }
            }
        }
        chars.into_iter().collect()
    }
}

fn has_call(item: &Item) -> bool {
    match item {
        Item::Call | Item::Block => true,
        Item::Bracket(contents) => contents.iter().any(has_call),
        _ => false,
    }
}
