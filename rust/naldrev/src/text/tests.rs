//! What is read and printed, and what is said of texts that cannot be read.

use std::fmt::{Debug, Display};
use std::str::FromStr;

use super::messages::BEGINS_AGAIN;
use super::tree::COLON;
use super::*;
use crate::{e, s, t, Expression, Item, Pattern, Value, Variable};

/// The error of a text that is no `T`.
fn error<T: FromStr<Err = TextError> + Debug>(text: &str) -> String {
    match text.parse::<T>() {
        Ok(read) => panic!("{text} was read as {read:?}"),
        Err(error) => error.to_string(),
    }
}

/// Reads a text and prints what was read.
fn printed<T: FromStr<Err = TextError> + Display>(text: &str) -> String {
    match text.parse::<T>() {
        Ok(read) => read.to_string(),
        Err(error) => panic!("{text}: {error}"),
    }
}

/// Checks the errors of texts: the column, on the first line, and what is said.
fn check_errors<T: FromStr<Err = TextError> + Debug>(cases: &[(&str, usize, &str)]) {
    for (text, column, said) in cases {
        assert_eq!(error::<T>(text), format!("line 1, column {column}: {said}"), "{text}");
    }
}

fn lefts(text: &str) -> Vec<String> {
    let found = sentences(text).unwrap_or_else(|error| panic!("{text}: {error}"));
    found.iter().map(|sentence| sentence.left.to_string()).collect()
}

fn terms(text: &str, layout: Option<Layout>) -> Vec<(usize, String)> {
    let found = messages(text, layout).unwrap_or_else(|error| panic!("{text}: {error}"));
    found.iter().map(|message| (message.line, message.terms.to_string())).collect()
}

fn rows(rows: &[(usize, &str)]) -> Vec<(usize, String)> {
    rows.iter().map(|(line, text)| (*line, text.to_string())).collect()
}

const MESSAGE: &str = "expected an identifier, a number, characters in '..', an unknown or a bracket";
const PATTERN: &str = "expected an identifier, a number, characters in '..', a variable or a bracket";

// ---- messages ----

#[test]
fn every_kind_of_term() {
    let text = "Session 'ab' (Meter 1015) () ?s.1.2 ?t.0.4294967295 ?e.3.4 007";
    assert_eq!(printed::<Expression>(text), text);
    let read: Expression = "x'a'(42)".parse().unwrap();
    assert_eq!(*read, [Value::Identifier("x".into()), Value::Char('a'), Value::Bracket(vec![Value::Number("42".into())])]);
    assert_eq!("?t.1.2".parse(), Ok(Value::Unknown { kind: UnknownKind::Term, level: 1, index: 2 }));
}

#[test]
fn blanks_and_comments_stand_between_terms() {
    let text = "* first line\r\n Day/* one */Night /* '(' */\t'*'\n*)\n  7 /*\n*/ '/* x */'";
    assert_eq!(printed::<Expression>(text), "Day Night '*' 7 '/* x */'");
    assert_eq!(printed::<Expression>(" \t\r\n"), "");
    assert_eq!(printed::<Expression>("* only a comment"), "");
}

#[test]
fn neighbouring_characters_are_one_text() {
    assert_eq!(printed::<Expression>("'a' 'b''c' '' ('d') 'e'"), "'ab\\'c' ('d') 'e'");
    assert_eq!("''".parse::<Expression>(), Ok(Expression::default()));
}

#[test]
fn escapes() {
    let read: Expression = r#"'\n\t\r\\\'\"\(\)\<\>\x41\xe9\x{1F50C}\x{0}'"#.parse().unwrap();
    assert_eq!(read, Expression(Value::chars("\n\t\r\\'\"()<>Aé\u{1F50C}\0")));
    assert_eq!(read.to_string(), r#"'\n\t\r\\\'"()<>Aé🔌\x{0}'"#);
}

#[test]
fn characters_that_cannot_be_seen_are_printed_by_number() {
    let shown = |c| Value::Char(c).to_string();
    assert_eq!(shown('\u{A0}'), r"'\x{A0}'");
    assert_eq!(shown('\u{7F}'), r"'\x{7F}'");
    assert_eq!(shown('\u{301}'), r"'\x{301}'");
    assert_eq!(shown('\u{FEFF}'), r"'\x{FEFF}'");
    assert_eq!(shown('\u{E000}'), r"'\x{E000}'");
    assert_eq!(shown('\u{10FFFF}'), r"'\x{10FFFF}'");
    assert_eq!(shown('€'), "'€'");
    assert_eq!(shown('"'), "'\"'");
}

#[test]
fn errors_in_quotes() {
    let unclosed = "the quote is not closed on its line; a line end is written \\n";
    let escapes = r#"in quotes there are \n \t \r \\ \' \" \( \) \< \> \xHH and \x{H..}, H being a hexadecimal digit"#;
    check_errors::<Expression>(&[
        ("Day 'ab", 5, unclosed),
        ("Day 'ab\n'", 5, unclosed),
        ("Day 'ab\r\n'", 5, unclosed),
        ("Day 'a\rb'", 5, unclosed),
        ("Day 'ab''", 5, unclosed),
        ("Day 'ab\\", 5, unclosed),
        ("Day 'ab\\\n'", 5, unclosed),
        (r"'é\q'", 3, &format!(r"\q is no escape; {escapes}")),
        (r"'\x4'", 2, &format!(r"\x4 is no escape; {escapes}")),
        (r"'\x{}'", 2, &format!(r"\x{{ is no escape; {escapes}")),
        (r"'\x{1234567}'", 2, &format!(r"\x{{123456 is no escape; {escapes}")),
        (r"'\x{D800}'", 2, r"\x{D800} is no Unicode character (0 to D7FF, E000 to 10FFFF)"),
        (r"'\x{110000}'", 2, r"\x{110000} is no Unicode character (0 to D7FF, E000 to 10FFFF)"),
    ]);
}

#[test]
fn words_that_are_no_terms() {
    check_errors::<Expression>(&[
        ("Session 10:15", 9, "10:15 is no term; as characters it is written '10:15'"),
        ("(Price 3.20)", 8, "3.20 is no term; as characters it is written '3.20'"),
        ("12kWh", 1, "12kWh is no term; as characters it is written '12kWh'"),
        ("-5", 1, "-5 is no term; as characters it is written '-5'"),
        ("at :15", 4, ":15 is no term; as characters it is written ':15'"),
        ("Day: x", 1, "Day: is no term; as characters it is written 'Day:'"),
        ("3,20 x", 1, "3,20 is no term; as characters it is written '3,20'"),
        ("é Größe", 1, "é is no term; as characters it is written 'é'"),
        ("Day *x", 5, "a comment has its * in column one; as characters *x is written '*x'"),
        ("a.b", 1, "a.b is no term; as characters it is written 'a.b'"),
        (r"a\b", 1, r"a\b is no term; as characters it is written 'a\\b'"),
        ("Day\u{A0}1", 1, r"Day\x{A0}1 is no term; as characters it is written 'Day\x{A0}1'"),
        ("\u{FEFF}Day", 1, &format!(r"\x{{FEFF}} starts no term; {MESSAGE}")),
        ("Day “x”", 5, &format!("“ starts no term; {MESSAGE}")),
        ("Day = 1", 5, &format!("= has no place in a message; {MESSAGE}")),
        ("Day;", 4, &format!("; has no place in a message; {MESSAGE}")),
        ("<Day>", 1, &format!("< has no place in a message; {MESSAGE}")),
        ("Day }", 5, "} closes nothing"),
        ("s.x", 1, "a message has no variables; as characters s.x is written 's.x'"),
        ("e.g.", 1, "a message has no variables; as characters e.g. is written 'e.g.'"),
        ("S.1", 1, "S.1 is no term; as characters it is written 'S.1'"),
    ]);
    assert_eq!(printed::<Expression>("s1 start e S1"), "s1 start e S1");
}

#[test]
fn a_long_word_is_cut_in_its_error() {
    let said = error::<Expression>(&"1x".repeat(1000));
    assert_eq!(said, format!("line 1, column 1: {}.. is no term; as characters it is written '..'", "1x".repeat(30)));
}

#[test]
fn double_quotes_are_refused() {
    check_errors::<Expression>(&[
        ("\"Harbour 3\"", 1, "identifiers have no blanks: write Harbour-3, or 'Harbour 3' for characters"),
        ("x \"Harbour-3\"", 3, "an identifier stands without double quotes: write Harbour-3"),
        ("\"3.20 €\"", 1, "double quotes are not read; as characters the text is written '3.20 €'"),
        ("\"abc\nd\"", 1, "double quotes are not read; characters stand in single quotes"),
    ]);
    assert_eq!(error::<Pattern>("\"s1\""), "line 1, column 1: an identifier stands without double quotes: write S1");
}

#[test]
fn unknowns() {
    let range = "LEVEL a number from 0 to 18446744073709551615, INDEX from 0 to 4294967295";
    check_errors::<Expression>(&[
        ("?s.1", 1, &format!("?s.1 is no unknown; one is written ?s.LEVEL.INDEX, {range}")),
        ("?e.1.", 1, &format!("?e.1. is no unknown; one is written ?e.LEVEL.INDEX, {range}")),
        ("?e.+1.2", 1, &format!("?e.+1.2 is no unknown; one is written ?e.LEVEL.INDEX, {range}")),
        ("?t.18446744073709551616.0", 1, &format!("?t.18446744073709551616.0 is no unknown; one is written ?t.LEVEL.INDEX, {range}")),
        ("?s.0.4294967296", 1, &format!("?s.0.4294967296 is no unknown; one is written ?s.LEVEL.INDEX, {range}")),
        ("?t.1.2x", 1, &format!("?t.1.2x is no unknown; one is written ?t.LEVEL.INDEX, {range}")),
        ("?x.1.2", 1, "?x.1.2 is no term; as characters it is written '?x.1.2'"),
    ]);
    assert_eq!(printed::<Expression>("?s.01.002"), "?s.1.2");
    let levels = "?s.0.1 ?t.4294967295.1 ?e.4294967296.1 ?s.18446744073709551615.4294967295";
    assert_eq!(printed::<Expression>(levels), levels);
    assert_eq!("?e.4294967301.2".parse(), Ok(Value::Unknown { kind: UnknownKind::Expression, level: (1 << 32) + 5, index: 2 }));
    assert_eq!(error::<Pattern>("e.1 ?s.1.2"), "line 1, column 5: ?s.1.2 is an unknown, and only messages have unknowns");
}

#[test]
fn brackets() {
    check_errors::<Expression>(&[("(a (b)", 1, "( is not closed"), ("(a (b", 4, "( is not closed"), ("(a)) b", 4, ") closes nothing")]);
    let nested = |depth: usize| "(".repeat(depth) + &")".repeat(depth);
    assert_eq!(printed::<Expression>(&nested(255)), nested(255));
    assert_eq!(error::<Expression>(&nested(256)), "line 1, column 256: brackets are at most 255 deep");
    assert_eq!(printed::<Pattern>(&nested(32)), nested(32));
    assert_eq!(error::<Pattern>(&nested(33)), "line 1, column 33: brackets are at most 32 deep");
}

#[test]
fn long_words() {
    for word in ["a".repeat(255), "1".repeat(255)] {
        assert_eq!(printed::<Expression>(&word), word);
        assert_eq!(printed::<Pattern>(&word), word);
    }
    let long = "a".repeat(256);
    assert_eq!(error::<Expression>(&long), "line 1, column 1: an identifier has at most 255 characters, and this one has 256");
    assert_eq!(error::<Pattern>(&"1".repeat(256)), "line 1, column 1: a number has at most 255 characters, and this one has 256");
    assert_eq!(printed::<Pattern>(&format!("s.{}", &long[1..])), format!("s.{}", &long[1..]));
    assert_eq!(
        error::<Pattern>(&format!("s.{long}")),
        "line 1, column 1: the name of a variable has at most 255 characters, and this one has 256"
    );
}

#[test]
fn places_are_counted_in_characters() {
    let wrong = "'äöü' Day\r\n('é' 10:15)".parse::<Expression>().unwrap_err();
    assert_eq!((wrong.line(), wrong.column()), (2, 6));
    assert_eq!(wrong.message(), "10:15 is no term; as characters it is written '10:15'");
    assert_eq!(error::<Expression>("Day\n /* open *"), "line 2, column 2: the comment is not closed");
}

#[test]
fn one_term() {
    check_errors::<Value>(&[("", 1, "expected one term, found 0"), ("'ab'", 1, "expected one term, found 2")]);
    assert_eq!(printed::<Value>(" (Meter 'x') "), "(Meter 'x')");
}

// ---- patterns ----

#[test]
fn variables() {
    assert_eq!("e.Item".parse(), Ok(e("item")));
    assert_eq!(printed::<Variable>(" t.a_b-1 "), "t.a_b-1");
    check_errors::<Variable>(&[
        ("e.1e.2", 1, "expected one variable, found 2"),
        ("Day", 1, "expected a variable such as e.Item, found Day"),
        ("", 1, "expected one variable, found 0"),
    ]);
}

#[test]
fn variables_run_together_are_read_apart() {
    assert_eq!(printed::<Pattern>("e.1e.2"), "e.1 e.2");
    assert_eq!(printed::<Pattern>("e.Items.1t.s"), "e.Item s.1 t.s");
    assert_eq!(printed::<Pattern>("'a's.1'b'(t.2)e.3/**/Day"), "'a' s.1 'b' (t.2) e.3 Day");
    let read: Pattern = "s.At.B".parse().unwrap();
    assert_eq!(*read, [s("A").into(), Item::Variable(t("B"))]);
}

#[test]
fn words_that_no_pattern_has() {
    check_errors::<Pattern>(&[
        ("a s.", 3, "s. has no name"),
        ("e.s.1", 1, "e. has no name"),
        ("e.(x)", 1, "e. has no name"),
        ("s.x.1", 1, "s.x.1 is no variable; a name has letters, digits, - and _"),
        ("s.größe", 1, "s.größe is no variable; a name has letters, digits, - and _"),
        ("s1", 1, "write s.1 for the variable, or S1 for the identifier: case is ignored"),
        ("(eX)", 2, "write e.X for the variable, or EX for the identifier: case is ignored"),
        ("S.1", 1, "the letter of a variable is small: write s.1"),
        ("Day.1", 1, "Day.1 is no term; as characters it is written 'Day.1'"),
        ("at 10:15", 4, "10:15 is no term; as characters it is written '10:15'"),
        ("Day: x", 4, &format!(": has no place in a pattern; {PATTERN}")),
        ("s.x = 1", 5, &format!("= has no place in a pattern; {PATTERN}")),
        ("€", 1, &format!("€ starts no term; {PATTERN}")),
    ]);
    assert_eq!(printed::<Pattern>("start s t e S1 s-"), "start s t e S1 s-");
}

#[test]
fn an_identifier_that_no_pattern_can_have_is_printed_in_capitals() {
    assert_eq!(Pattern(vec![Item::Identifier("s1".into()), Item::Identifier("s12".into())]).to_string(), "S1 s12");
    assert_eq!(Item::Identifier("eX".into()).to_string(), "EX");
}

#[test]
fn calls_and_blocks_keep_nothing() {
    let text = "a <Round (s.1 + 2) '>' {x = y; z;}> {e.1 : (b), <- 3> ; } ()";
    assert_eq!(printed::<Pattern>(text), "a <> {} ()");
    check_errors::<Pattern>(&[
        ("a <b (c)", 3, "< is not closed"),
        ("a <b (c>", 8, "> closes nothing"),
        ("a <b; c>", 3, "< is not closed"),
        ("{s1}", 2, "write s.1 for the variable, or S1 for the identifier: case is ignored"),
        ("<?s.1.2>", 2, "?s.1.2 is an unknown, and only messages have unknowns"),
    ]);
}

#[test]
fn limits_of_patterns() {
    let said = "a pattern has at most 256 terms and variables, a bracket counting as two";
    let chars = |count: usize| format!("'{}'", "a".repeat(count));
    assert_eq!(printed::<Pattern>(&chars(256)), chars(256));
    assert_eq!(error::<Pattern>(&chars(257)), format!("line 1, column 258: {said}"));
    assert_eq!(error::<Pattern>(&format!("{} (", chars(255))), "line 1, column 259: ( is not closed");
    assert_eq!(error::<Pattern>(&format!("{} ()", chars(255))), format!("line 1, column 260: {said}"));
    assert_eq!(error::<Pattern>(&format!("{} <>", chars(256))), format!("line 1, column 260: {said}"));

    let variables = |count: usize| (0..count).map(|n| format!("s.a{n} s.A{n}\n")).collect::<String>();
    assert_eq!(variables(64).parse::<Pattern>().unwrap().len(), 128);
    assert_eq!(error::<Pattern>(&variables(65)), "line 65, column 1: a pattern has at most 64 different variables");
}

// ---- sentences ----

#[test]
fn sentences_with_and_without_names_and_right_sides() {
    let text = "* prices\nNight : Session s.point (Tariff Night) = <Price s.point '; = )'>;\n\
                Day:e.1 'x' ; /* none */ = ;\n (kWh s.energy) = { A, <F 1> : s.x = 10 : 15; } 2 * 3 - 4;e.rest";
    assert_eq!(lefts(text), ["Session s.point (Tariff Night)", "e.1 'x'", "", "(kWh s.energy)", "e.rest"]);
    let found = sentences(text).unwrap();
    assert_eq!(found.iter().map(|sentence| sentence.line).collect::<Vec<_>>(), [2, 3, 3, 4, 4]);
    let names: Vec<_> = found.iter().map(|sentence| sentence.name.as_deref()).collect();
    assert_eq!(names, [Some("Night"), Some("Day"), None, None, None]);
    assert!(lefts("").is_empty());
    assert!(lefts("* none\n /* none */\n").is_empty());
}

#[test]
fn a_name_may_be_any_identifier() {
    let found = sentences("s1: A; e /* x */ : B; Start").unwrap();
    let names: Vec<_> = found.iter().map(|sentence| sentence.name.as_deref()).collect();
    assert_eq!(names, [Some("s1"), Some("e"), None]);
}

#[test]
fn errors_of_sentences() {
    let cases = [
        ("A;\nNight: B;\nDay: C;\nnight: D;", "line 4, column 1: the sentence on line 2 has this name too"),
        ("e.1, s.x : 5 = 1;", "line 1, column 4: conditions are not read: a sentence is PATTERN = RIGHT;"),
        ("Day, A : 5 = 1;", "line 1, column 4: conditions are not read: a sentence is PATTERN = RIGHT;"),
        ("A <B> = 1;", "line 1, column 3: a call in a left side: such a sentence can never fit"),
        ("A = 1;\n;", "line 2, column 1: a sentence without a pattern; an empty left side is written with ="),
        ("A;Night:", "line 1, column 3: a sentence without a pattern; an empty left side is written with ="),
        ("(A = 1;", "line 1, column 1: ( is not closed"),
        ("A = (1;", "line 1, column 5: ( is not closed"),
        ("A = {(1; 2)};", "line 1, column 6: ( is not closed"),
        ("A = 1)", "line 1, column 6: ) closes nothing"),
        ("A = s1;", "line 1, column 5: write s.1 for the variable, or S1 for the identifier: case is ignored"),
        ("A = 3.20;", "line 1, column 5: 3.20 is no term; as characters it is written '3.20'"),
        ("A = 'x;", "line 1, column 5: the quote is not closed on its line; a line end is written \\n"),
        ("A = 1\nB = 2;", "line 2, column 3: a second = in the sentence; a sentence ends with ;"),
        ("A = 10:15;", "line 1, column 5: 10:15 is no term; as characters it is written '10:15'"),
        ("A = {(3,20)};", "line 1, column 7: 3,20 is no term; as characters it is written '3,20'"),
        ("A: B: C;", &format!("line 1, column 5: {COLON}")),
        ("Night: A\nDay: B;", &format!("line 2, column 4: {COLON}")),
        ("Night: A = 1\nDay: B;", &format!("line 2, column 4: {COLON}")),
        ("Night rate: A;", &format!("line 1, column 11: {COLON}")),
        ("1: A;", &format!("line 1, column 2: {COLON}")),
        ("A /* B;", "line 1, column 3: the comment is not closed"),
    ];
    for (text, said) in cases {
        match sentences(text) {
            Ok(read) => panic!("{text} was read as {read:?}"),
            Err(error) => assert_eq!(error.to_string(), said, "{text}"),
        }
    }
    let function = sentences("Price { A = 1; }").unwrap_err();
    assert_eq!((function.column(), function.message().starts_with("a block in a left side")), (7, true));
}

#[test]
fn a_long_name_of_a_sentence() {
    let name = "a".repeat(255);
    assert_eq!(sentences(&format!("{name}: A")).unwrap()[0].name, Some(name.clone()));
    let said = format!("the name of a sentence has at most 255 characters: {}..", &name[..60]);
    assert_eq!(sentences(&format!("a{name}: A")).unwrap_err().message(), said);
}

// ---- files of messages ----

#[test]
fn one_message_a_line() {
    let text = "* Monday\nSession A\r\n/* none */\n  (kWh 42) \n";
    assert_eq!(terms(text, None), rows(&[(2, "Session A"), (4, "(kWh 42)")]));
    assert_eq!(terms("A\n\nB\nC", Some(Layout::Lines)), rows(&[(1, "A"), (3, "B"), (4, "C")]));
    assert!(terms("", None).is_empty());
    assert!(terms("\n* none\n", None).is_empty());
}

#[test]
fn messages_between_blank_lines() {
    let text = "\n\n* Monday\nSession A\n* in between\n (kWh\n 42)\n \t\r\n\n* only a comment\n\nSession /* x\n*/ B\n";
    assert_eq!(terms(text, None), rows(&[(4, "Session A (kWh 42)"), (12, "Session B")]));
    assert_eq!(terms("A\nB", Some(Layout::Paragraphs)), rows(&[(1, "A B")]));
}

#[test]
fn comments_do_not_change_the_layout() {
    let two_lines = |first| rows(&[(first, "A"), (first + 1, "B")]);
    assert_eq!(terms("* Monday\n\nA\nB\n\n* end", None), two_lines(3));
    assert_eq!(terms("/* Monday */\n\nA\nB", None), two_lines(3));
    assert_eq!(terms("A\n* x\n\nB\nC", None), rows(&[(1, "A"), (4, "B C")]));
    assert_eq!(terms("A\n\n/* x */\nB", None), rows(&[(1, "A"), (4, "B")]));
    assert_eq!(terms("A '/*'\n\nB", None), rows(&[(1, "A '/*'"), (3, "B")]));
}

#[test]
fn a_paragraph_that_begins_again() {
    let days = "Session A\nSession B\n\nSession C\n";
    assert_eq!(terms(days, Some(Layout::Lines)), rows(&[(1, "Session A"), (2, "Session B"), (4, "Session C")]));
    assert_eq!(terms(days, Some(Layout::Paragraphs)), rows(&[(1, "Session A Session B"), (4, "Session C")]));
    // Only a line that begins with the same identifier in column one.
    let one = rows(&[(1, "Session Sessions Session"), (5, "B")]);
    assert_eq!(terms("Session\nSessions\n Session\n\nB", None), one);
    assert_eq!(terms("7\n7\n\n(7)\n(7)", None), rows(&[(1, "7 7"), (4, "(7) (7)")]));
}

#[test]
fn errors_in_files_of_messages() {
    let line = "is not closed before the end of its line, and each line is a message";
    let part = "is not closed before the end of its message";
    let cases = [
        ("A\nB (C\nD)", format!("line 2, column 3: ( {line}")),
        ("A\n\nB\n(C\n\nD)", format!("line 4, column 1: ( {part}")),
        ("A\n/* Monday\n*/ B", format!("line 2, column 1: the comment {line}")),
        ("A /* x\n\ny */ B", format!("line 1, column 3: the comment {part}")),
        ("A\nB\n'é' 3.20", "line 3, column 5: 3.20 is no term; as characters it is written '3.20'".into()),
        ("A\n ''\nB", "line 2, column 2: a message without terms cannot stand in a file of messages".into()),
        ("Session A\nSession B\n\nSession C\n", format!("line 2, column 1: {BEGINS_AGAIN}")),
        ("A\n\n* Monday\nSession A\n* x\n(7)\nSESSION B\n", format!("line 7, column 1: {BEGINS_AGAIN}")),
    ];
    for (text, said) in cases {
        match messages(text, None) {
            Ok(read) => panic!("{text} was read as {read:?}"),
            Err(error) => assert_eq!(error.to_string(), said, "{text}"),
        }
    }
}
