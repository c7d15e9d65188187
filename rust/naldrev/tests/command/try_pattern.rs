//! `naldrev try`.

use super::json::{self, Json};
use super::*;

const PRICE: &str = "Session s.point (Start s.from) e.meters (Stop s.to) (kWh s.energy)";
const METER: &str = "e.before (Meter s.time s.reading) e.after";

#[test]
fn one_candidate_is_printed_by_name() {
    let out = "s.point = Harbour-3
s.from = 1015
e.meters = (Meter 1015 1208) (Meter 1140 1250)
s.to = 1140
s.energy = 42
";
    run(["try", SESSION, PRICE]).prints(FITS, out);
}

#[test]
fn several_candidates_are_numbered() {
    let out = "candidate 1
  e.1 =
  e.2 = '-b'
candidate 2
  e.1 = '-'
  e.2 = 'b'
";
    run(["try", "'--b'", "e.1 '-' e.2"]).prints(FITS, out);
}

#[test]
fn a_pattern_without_variables_fits_or_not() {
    run(["try", "Session 'ab'", "Session 'ab'"]).prints(FITS, "fits\n");
    run(["try", "", ""]).prints(FITS, "fits\n");
    run(["try", "Session 'ab'", "Session 'a'"]).is_no_match();
}

#[test]
fn identifiers_fit_whatever_their_case() {
    run(["try", "SESSION Harbour-3", "Session s.Point"]).prints(FITS, "s.Point = Harbour-3\n");
}

#[test]
fn numbers_fit_whatever_their_leading_zeros_and_keep_them() {
    run(["try", "Session Harbour-3 (Connector 007) (kWh 042)", "Session s.point (Connector 7) (kWh s.energy)"])
        .prints(FITS, "s.point = Harbour-3\ns.energy = 042\n");
    run(["try", "--bind", "s.x=7", "007", "s.x"]).prints(FITS, "s.x = 7\n");
    run(["try", "70", "7"]).is_no_match();
}

#[test]
fn nothing_fits() {
    run(["try", "Session Harbour-3", PRICE]).is_no_match();
    run(["try", "--first", "Session Harbour-3", PRICE]).is_no_match();
}

#[test]
fn texts_come_from_files_and_standard_input() {
    let message = file("session.txt", format!("* a session\n{SESSION}\n"));
    let pattern = file("price.txt", "Session s.point /* the point */\n  e.rest\n");
    let out = "s.point = Harbour-3\ne.rest = (Start 1015) (Meter 1015 1208) (Meter 1140 1250) (Stop 1140) (kWh 42)\n";
    run(["try", &format!("@{message}"), &format!("@{pattern}")]).prints(FITS, out);
    run_on(["try", "-", &format!("@{pattern}")], SESSION.as_bytes()).prints(FITS, out);
    run_on(["try", SESSION, "-"], b"Session s.point e.rest").prints(FITS, out);
    run_on(["try", "-", "-"], b"a").is_bad("-: standard input can be read only once");
}

// ---- starting bindings ----

#[test]
fn a_binding_chooses_among_the_candidates() {
    let found = run(["try", SESSION, METER, "--bind", "s.time=1140"]);
    let out =
        "s.time = 1140\ne.before = Session Harbour-3 (Start 1015) (Meter 1015 1208)\ns.reading = 1250\ne.after = (Stop 1140) (kWh 42)\n";
    found.prints(FITS, out);
    run(["try", SESSION, METER, "--bind=s.TIME=1140", "--bind", "s.reading = 1208"]).is_no_match();
    run(["try", "--bind", "e.x=(a 'b') 7", "(A 'b') 7 8", "e.x s.y"]).prints(FITS, "e.x = (a 'b') 7\ns.y = 8\n");
    run(["try", "--bind", "e.x=", "7", "e.x s.y"]).prints(FITS, "e.x =\ns.y = 7\n");
    let found = run(["try", "--json", "--bind", "s.POINT=a", "A", "s.Point"]);
    found.prints(FITS, "{\"fits\":true,\"more\":false,\"candidates\":[{\"s.Point\":\"a\"}]}\n");
}

#[test]
fn bindings_that_cannot_be() {
    let with = |bind: &str| run(["try", "7", "s.x t.y e.z", "--bind", bind]);
    with("s.x").is_bad("--bind 1:1:1: expected VARIABLE=TERMS");
    with("s.w=7").is_bad("--bind 1:1:1: the pattern has no variable s.w");
    with("s.x=7 8").is_bad("--bind 1:1:5: s.x stands for one symbol, found: 7 8");
    with("s.x=(7)").is_bad("--bind 1:1:5: s.x stands for one symbol");
    with("s.x=?t.1.1").is_bad("--bind 1:1:5: s.x stands for one symbol");
    with("t.y=").is_bad("--bind 1:1:5: t.y stands for one term, found: nothing\n");
    with("=7").is_bad("--bind 1:1:1: expected one variable, found 0");
    with("t.y=?e.1.1").is_bad("--bind 1:1:5: t.y stands for one term");
    with("x=7").is_bad("--bind 1:1:1: ");
    with("s.x=10:15").is_bad("--bind 1:1:5: ");
    run(["try", "7", "s.x", "--bind", "s.x=7", "--bind", "s.X=8"]).is_bad("--bind 2:1:1: s.x is bound twice");
}

// ---- how many ----

#[test]
fn more_than_asked_for() {
    let found = run(["try", "'abc'", "e.1 e.2", "--max", "2"]);
    assert_eq!((found.status, found.out.as_str()), (HELD, "candidate 1\n  e.1 =\n  e.2 = 'abc'\ncandidate 2\n  e.1 = 'a'\n  e.2 = 'bc'\n"));
    assert!(found.err.contains("more candidates than the 2 printed"), "{found:?}");
    let found = run(["try", "'abc'", "e.1 e.2", "--max=1"]);
    assert_eq!((found.status, found.out.as_str()), (HELD, "candidate 1\n  e.1 =\n  e.2 = 'abc'\n"));
    assert_eq!(run(["try", "'abc'", "e.1 e.2", "--max", "4"]).status, FITS);
}

#[test]
fn sixteen_where_nothing_is_asked_for() {
    for (terms, status) in [(15, FITS), (16, HELD)] {
        let found = run(["try", &format!("'{}'", "a".repeat(terms)), "e.1 e.2"]);
        assert_eq!((found.status, found.out.matches("candidate").count()), (status, 16));
    }
}

#[test]
fn the_first_alone() {
    run(["try", "--first", "'abc'", "e.1 e.2"]).prints(FITS, "e.1 =\ne.2 = 'abc'\n");
}

#[test]
fn a_bad_number_of_candidates() {
    for bad in ["0", "-1", "+3", "x", "", "100001", "99999999999999999999"] {
        run(["try", "7", "e.1", "--max", bad]).is_bad(&format!("naldrev try: --max takes a number from 1 to 100000, found {bad}\n"));
    }
    run(["try", "7", "e.1", "--max", "3", "--first"]).is_bad("naldrev try: --first and --max exclude each other\n");
}

// ---- JSON ----

fn text(text: &str) -> Json {
    Json::Text(text.into())
}

fn answer(fits: bool, more: Json, candidates: &[&[(&str, &str)]]) -> Json {
    let candidate = |pairs: &&[(&str, &str)]| Json::Object(pairs.iter().map(|(name, terms)| (name.to_string(), text(terms))).collect());
    let candidates = Json::List(candidates.iter().map(candidate).collect());
    Json::Object([("fits".into(), Json::Bool(fits)), ("more".into(), more), ("candidates".into(), candidates)].into())
}

#[test]
fn candidates_as_json() {
    let found = run(["try", "--json", "Session Harbour-3", "Session s.point"]);
    found.prints(FITS, "{\"fits\":true,\"more\":false,\"candidates\":[{\"s.point\":\"Harbour-3\"}]}\n");
    let found = run(["try", "--json", "'--'", "e.1 '-' e.2"]);
    let both = [[("e.1", ""), ("e.2", "'-'")], [("e.1", "'-'"), ("e.2", "")]];
    assert_eq!(json::read(&found.out), answer(true, Json::Bool(false), &[&both[0], &both[1]]));
}

#[test]
fn json_where_nothing_fits_or_more_does() {
    run(["try", "--json", "7", "8"]).prints(NO_MATCH, "{\"fits\":false,\"more\":false,\"candidates\":[]}\n");
    run(["try", "--json", "7", "7"]).prints(FITS, "{\"fits\":true,\"more\":false,\"candidates\":[{}]}\n");
    let found = run(["try", "--json", "--max", "1", "7", "e.1 e.2"]);
    assert_eq!((found.status, json::read(&found.out)), (HELD, answer(true, Json::Bool(true), &[&[("e.1", ""), ("e.2", "7")]])));
    let found = run(["try", "--json", "--first", "7", "e.1 e.2"]);
    assert_eq!((found.status, json::read(&found.out)), (FITS, answer(true, Json::Null, &[&[("e.1", ""), ("e.2", "7")]])));
    run(["try", "--json", "7", "s1"]).is_bad("PATTERN:1:1: ");
}

#[test]
fn json_of_every_kind_of_character() {
    let all: String = (0..0x300).chain([0x2028, 0xfeff, 0xfffd, 0x1f50c, 0x10ffff]).filter_map(char::from_u32).collect();
    let message: String = all.chars().map(|c| format!("\\x{{{:X}}}", u32::from(c))).collect();
    let found = run(["try", "--json", &format!("'{message}'"), "e.all"]);
    let Json::Object(object) = json::read(&found.out) else { panic!("{found:?}") };
    let Json::List(candidates) = &object["candidates"] else { panic!("{found:?}") };
    let Json::Object(candidate) = &candidates[0] else { panic!("{found:?}") };
    let Json::Text(terms) = &candidate["e.all"] else { panic!("{found:?}") };
    // The text form that was printed is the same message again.
    let again = file("again.txt", terms);
    let same = format!("--bind=e.all='{message}'");
    assert_eq!(run(["try", &format!("@{again}"), "e.all", &same]).status, FITS);
    assert_eq!(run(["try", &format!("@{again}"), "e.all s.more", &same]).status, NO_MATCH);
}

// ---- large messages, limits, errors ----

#[test]
fn a_message_of_thousands_of_readings() {
    let message = file("long.txt", long_session(5_000));
    let from_file = format!("@{message}");
    let found = run(["try", &from_file, "Session s.point e.meters (kWh s.energy)"]);
    assert_eq!(found.status, FITS, "{}", found.err);
    let lines: Vec<&str> = found.out.lines().collect();
    assert_eq!((lines.len(), lines[0], lines[2]), (3, "s.point = Harbour-3", "s.energy = 42"));
    let expected = long_session(5_000).replace("Session Harbour-3", "e.meters =").replace(" (kWh 42)", "");
    assert!(lines[1] == expected, "what e.meters stands for");
    let found = run(["try", &from_file, METER]);
    assert_eq!((found.status, found.out.matches("candidate").count()), (HELD, 16));
    run(["try", &from_file, "e.1 (Meter 9999 s.x) e.2"]).is_no_match();
}

#[test]
fn a_message_past_the_limits() {
    let over = |text: String| run(["try", &format!("@{}", file("over.txt", text)), "e.1"]);
    let found = over("a ".repeat(65_537));
    assert_eq!((found.status, found.out.as_str()), (BAD, ""));
    assert!(found.err.ends_with("over.txt: the terms are over 65536 together, those in brackets counted\n"), "{found:?}");
    let found = over((0..300).map(|i| format!("a{i:0254} ")).collect());
    assert!(found.status == BAD && found.err.contains("bytes together"), "{found:?}");
    assert_eq!(over("a ".repeat(65_536)).status, FITS);
}

#[test]
fn errors_have_their_place() {
    run(["try", "Session 10:15", "e.1"]).is_bad("MESSAGE:1:9: ");
    run(["try", "Session (", "e.1"]).is_bad("MESSAGE:1:9: ");
    run(["try", "Session", "Session\n  s1"]).is_bad("PATTERN:2:3: ");
    run(["try", "s.x", "e.1"]).is_bad("MESSAGE:1:1: ");
    let message = file("bad.txt", "Session\n(kWh\n'é' 12kWh)\n");
    run(["try", &format!("@{message}"), "e.1"]).is_bad(&format!("{message}:3:5: "));
    run_on(["try", "-", "e.1"], b"a )").is_bad("-:1:3: ");
}

#[test]
fn calls_and_blocks_are_no_patterns() {
    for pattern in ["Session <Round s.x>", "Session {a}"] {
        run(["try", "Session 7", pattern]).is_bad("PATTERN: the pattern has a call or a block");
    }
    // No try reaches the call.
    run(["try", "Stop 7", "Session <Round s.x>"]).is_no_match();
}
