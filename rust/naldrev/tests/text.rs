//! The text form on random values: what is printed reads back as the same, however it is written; damaged texts give an error or a value.

mod generate;

use std::fmt::{Debug, Display};
use std::str::FromStr;

use generate::{tokens, Random, Token, BREAKS, GAPS};
use naldrev::{messages, sentences, Expression, Item, Layout, Message, Pattern, Sentence, TextError, Value, Variable};

/// How many random values of each kind are tried.
const CASES: u64 = 4000;
const LAYOUTS: [Option<Layout>; 3] = [None, Some(Layout::Lines), Some(Layout::Paragraphs)];

/// Checks that a value reads back from what it prints, and from the same tokens written in another way.
fn check<T: FromStr<Err = TextError> + Display + Debug + PartialEq>(random: &mut Random, value: &T, tokens: &[Token]) {
    let printed = value.to_string();
    assert_eq!(printed.parse().as_ref(), Ok(value), "{printed}");
    let loose = random.write(tokens, &BREAKS);
    match loose.parse::<T>() {
        Ok(read) => assert_eq!(read.to_string(), printed, "{loose}"),
        Err(error) => panic!("{error} in {loose}"),
    }
}

#[test]
fn expressions_and_values() {
    for seed in 1..=CASES {
        let mut random = Random::new(seed);
        let message = random.expression();
        check(&mut random, &message, &tokens(&message));
        if let Some(value) = message.first() {
            check(&mut random, value, &tokens(std::slice::from_ref(value)));
        }
    }
}

#[test]
fn patterns_items_and_variables() {
    for seed in 1..=CASES {
        let mut random = Random::new(seed);
        let pattern = random.pattern();
        check(&mut random, &pattern, &tokens(&pattern));
        if let Some(item) = pattern.first() {
            check(&mut random, item, &tokens(std::slice::from_ref(item)));
        }
        let variable = random.variable();
        let read: Variable = variable.to_string().parse().unwrap();
        // Equality ignores the case of a name, and printing must not.
        assert_eq!((read.kind, &read.name), (variable.kind, &variable.name));
    }
}

#[test]
fn sentences_with_names_and_right_sides() {
    for seed in 1..=CASES {
        let mut random = Random::new(seed);
        let (text, expected) = random.sentences();
        assert_eq!(sentences(&text).as_deref(), Ok(&expected[..]), "{text}");
    }
}

/// Messages as one text, with any of the gaps inside and any of the ends after each.
fn write_all(random: &mut Random, all: &[Expression], gaps: &[&str], ends: &[&str]) -> (String, Vec<Message>) {
    let mut text = String::new();
    let mut expected = Vec::new();
    for terms in all {
        expected.push(Message { line: 1 + text.matches('\n').count(), terms: terms.clone() });
        text += &random.write_inside(&tokens(terms), gaps);
        text += random.pick(ends);
    }
    (text, expected)
}

#[test]
fn files_of_messages() {
    let mut refused = 0;
    for seed in 1..=CASES {
        let mut random = Random::new(seed);
        let all: Vec<Expression> = (0..2 + random.below(4)).map(|_| random.message()).collect();
        let (text, expected) = write_all(&mut random, &all, &GAPS, &["\n", "\r\n", " \n* comment\n", "/* x */\n"]);
        assert_eq!(messages(&text, None).as_ref(), Ok(&expected), "{text}");
        let (text, expected) = write_all(&mut random, &all, &GAPS, &["\n", "\n\n", "\n \t\n* comment\n"]);
        assert_eq!(messages(&text, Some(Layout::Lines)).as_ref(), Ok(&expected), "{text}");
        let (text, expected) = write_all(&mut random, &all, &BREAKS, &["\n\n", "\r\n \r\n", "\n\n* comment\n\n\n"]);
        assert_eq!(messages(&text, Some(Layout::Paragraphs)).as_ref(), Ok(&expected), "{text}");
        match messages(&text, None) {
            Ok(found) => assert_eq!(found, expected, "{text}"),
            Err(error) => {
                assert!(error.message().starts_with("this line begins as its paragraph does"), "{error} in {text}");
                refused += 1;
            }
        }
    }
    assert!(refused < CASES / 20, "{refused} layouts are not guessed");
}

// ---- damaged texts ----

/// How many damaged texts were read, and how many gave an error.
#[derive(Default)]
struct Tally {
    read: u64,
    refused: u64,
}

impl Tally {
    /// An error has to stand in its text, and what was read has to read back from its print.
    fn check<T: Debug + PartialEq>(&mut self, text: &str, read: Result<T, TextError>, again: impl Fn(&T) -> Result<T, TextError>) {
        match read {
            Ok(value) => {
                self.read += 1;
                assert_eq!(again(&value).as_ref(), Ok(&value), "{text}");
            }
            Err(error) => {
                self.refused += 1;
                let line = text.split('\n').nth(error.line() - 1);
                let columns = line.map_or(0, |line| line.chars().count() + 1);
                assert!((1..=columns).contains(&error.column()), "{error} in {text}");
                assert!(!error.message().contains('\n'), "{error} in {text}");
            }
        }
    }

    fn check_print<T: FromStr<Err = TextError> + Display + Debug + PartialEq>(&mut self, text: &str) {
        self.check(text, text.parse::<T>(), |value| value.to_string().parse());
    }

    fn check_sentences(&mut self, text: &str) {
        let kept = |found: Vec<Sentence>| found.into_iter().map(|s| (s.name, s.left)).collect::<Vec<_>>();
        self.check(text, sentences(text).map(kept), |found| {
            let write = |(name, left): &(Option<String>, Pattern)| match name {
                Some(name) => format!("{name}: {left} =;\n"),
                None => format!("{left} =;\n"),
            };
            sentences(&found.iter().map(write).collect::<String>()).map(kept)
        });
    }

    fn check_messages(&mut self, text: &str) {
        let kept = |found: Vec<Message>| found.into_iter().map(|message| message.terms).collect::<Vec<_>>();
        for layout in LAYOUTS {
            self.check(text, messages(text, layout).map(kept), |found| {
                let lines: String = found.iter().map(|terms| format!("{terms}\n")).collect();
                messages(&lines, None).map(kept)
            });
        }
    }
}

#[test]
fn damaged_texts() {
    let mut tally = Tally::default();
    for seed in 1..=CASES {
        let mut random = Random::new(seed);
        let text = match random.below(3) {
            0 => random.sentences().0,
            1 => {
                let message = random.expression();
                random.write(&tokens(&message), &BREAKS)
            }
            _ => {
                let pattern = random.pattern();
                random.write(&tokens(&pattern), &BREAKS)
            }
        };
        let damaged = random.damage(&text);
        tally.check_print::<Expression>(&damaged);
        tally.check_print::<Value>(&damaged);
        tally.check_print::<Pattern>(&damaged);
        tally.check_print::<Item>(&damaged);
        tally.check_print::<Variable>(&damaged);
        tally.check_sentences(&damaged);
        tally.check_messages(&damaged);
    }
    assert!(tally.read > CASES && tally.refused > CASES, "{} read, {} refused", tally.read, tally.refused);
}

// ---- large texts, which would take minutes if any part were read again and again ----

#[test]
fn large_texts() {
    const MANY: usize = 1 << 16;
    let message: Expression = "(Meter 1015 'ab') ".repeat(MANY).parse().unwrap();
    assert_eq!(message.len(), MANY);
    assert_eq!(message.to_string().len(), "(Meter 1015 'ab') ".len() * MANY - 1);
    assert_eq!(messages(&"Session\n".repeat(MANY), None).unwrap().len(), MANY);
    assert_eq!(messages(&"Session\n\n".repeat(MANY), None).unwrap().len(), MANY);
    assert_eq!(sentences(&"Session s.1 = s.1;\n".repeat(MANY)).unwrap().len(), MANY);
    for part in ["e.1", "(", "{a=b;", "'x'", "a+", "/**/", "?"] {
        let right = sentences(&format!("A = {}", part.repeat(MANY)));
        assert_eq!(right.is_ok(), !part.starts_with(['(', '{']), "{part}");
    }
    assert!("(".repeat(MANY).parse::<Pattern>().is_err());
    assert!("1:".repeat(MANY).parse::<Expression>().unwrap_err().message().len() < 1000);
}

// ---- the document ----

/// The blocks of a document that are marked as of this kind.
fn blocks<'a>(document: &'a str, kind: &str) -> Vec<&'a str> {
    let mark = format!("\n```{kind}\n");
    let after = document.match_indices(&mark).map(|(at, _)| &document[at + mark.len()..]);
    after.filter_map(|rest| rest.split("```").next()).collect()
}

#[test]
fn the_document_says_what_is_read() {
    let path = concat!(env!("CARGO_MANIFEST_DIR"), "/../../docs/TEXT.md");
    let document = std::fs::read_to_string(path).unwrap();
    let counts: Vec<usize> = blocks(&document, "messages").iter().map(|text| messages(text, None).unwrap().len()).collect();
    assert_eq!(counts, [1, 2, 2]);
    for text in blocks(&document, "pattern") {
        assert_eq!(text.parse::<Pattern>().unwrap().to_string(), text.trim_end());
    }
    let names: Vec<_> = blocks(&document, "sentences").into_iter().flat_map(|text| sentences(text).unwrap()).map(|s| s.name).collect();
    assert_eq!(names, ["Night", "Day", "Rest"].map(|name| Some(name.to_string())));

    let rows: Vec<_> = document.lines().filter(|line| line.contains("| `line ")).collect();
    assert!(rows.len() > 3);
    for row in rows {
        let cells: Vec<&str> = row.trim_matches('|').split(" | ").map(|cell| cell.trim().trim_matches('`')).collect();
        assert_eq!(cells[0].parse::<Expression>().unwrap_err().to_string(), cells[1]);
    }
}
