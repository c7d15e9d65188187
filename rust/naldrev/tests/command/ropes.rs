//! `naldrev join` and `naldrev cut`.

use super::*;

// ---- join ----

#[test]
fn two_messages_on_one_line() {
    let left = file("left.txt", "Session Harbour-3\n  (Start 1015) /* more follows */\n");
    let right = file("right.txt", "* the rest\n(Stop 1140) 'a' 'b'\n");
    let out = "Session Harbour-3 (Start 1015) (Stop 1140) 'ab'\n";
    run(["join", &left, &right]).prints(FITS, out);
    run(["join", &format!("@{left}"), &right]).prints(FITS, out);
    run_on(["join", "-", &right], b"Session Harbour-3 (Start 1015)").prints(FITS, out);
    run_on(["join", &left, "-"], b"(Stop 1140) 'ab'").prints(FITS, out);
    run_on(["join", "-", "-"], b"a").is_bad("-: standard input can be read only once\n");
}

#[test]
fn characters_meet_in_one_text() {
    run(["join", &file("a", "'a'"), &file("b", "'b'")]).prints(FITS, "'ab'\n");
}

#[test]
fn an_empty_message_adds_nothing() {
    let [empty, seven] = [file("empty", ""), file("seven", "7")];
    run(["join", &empty, &seven]).prints(FITS, "7\n");
    run(["join", &seven, &empty]).prints(FITS, "7\n");
    run(["join", &empty, &empty]).prints(FITS, "\n");
}

#[test]
fn messages_that_cannot_be_joined() {
    let [good, bad] = [file("good", "7"), file("bad", "7\n 3.20")];
    run(["join", &good, &bad]).is_bad(&format!("{bad}:2:2: "));
    let half = file("half", "a ".repeat(40_000));
    let ran = run(["join", &half, &half]);
    ran.is_bad(&format!("{half}: the terms are over 65536 together"));
}

#[test]
fn long_messages_are_joined() {
    let long = file("long", long_session(5_000));
    let text = long_session(5_000);
    let ran = run(["join", &long, &long]);
    assert!(ran.status == FITS && ran.out == format!("{text} {text}\n"), "{}", ran.err);
}

// ---- cut ----

fn cut(text: &str, pattern: &str) -> Ran {
    run_on(["cut", "-", "--before", pattern], text.as_bytes())
}

#[test]
fn cut_before_the_first_place() {
    cut(SESSION, "(Meter s.1 s.2)")
        .prints(FITS, "Session Harbour-3 (Start 1015)\n(Meter 1015 1208) (Meter 1140 1250) (Stop 1140) (kWh 42)\n");
    cut(SESSION, "(Meter 1140 s.x) e.y (kWh 42)")
        .prints(FITS, "Session Harbour-3 (Start 1015) (Meter 1015 1208)\n(Meter 1140 1250) (Stop 1140) (kWh 42)\n");
    cut("'abcabc'", "'ca'").prints(FITS, "'ab'\n'cabc'\n");
}

#[test]
fn cut_at_the_ends() {
    cut("7 8", "7").prints(FITS, "\n7 8\n");
    cut("7 8", "").prints(FITS, "\n7 8\n");
    cut("", "e.1").prints(FITS, "\n\n");
}

#[test]
fn the_names_of_the_pattern_are_its_own() {
    let pattern = "(e.before) (e.after) (e.before-) (e.1) (e.2) (e.BEFORE)";
    cut("0 (1) (2) (3) (4) (5) (1) 9", pattern).prints(FITS, "0\n(1) (2) (3) (4) (5) (1) 9\n");
    cut("0 (1) (2) (3) (4) (5) (6) 9", pattern).is_no_match();
}

#[test]
fn nothing_to_cut_before() {
    cut(SESSION, "(Idle s.1)").is_no_match();
    // What stands inside a bracket is not looked at.
    cut("(7)", "7").is_no_match();
}

#[test]
fn cuts_that_cannot_be_made() {
    cut("10:15", "7").is_bad("-:1:1: ");
    cut("7", "s1").is_bad("PATTERN:1:1: ");
    cut("7", "<F>").is_bad("PATTERN: the pattern has a call or a block");
    let message = file("message", "7 8");
    run(["cut", &message, "--before", &format!("@{}", file("pattern", "8"))]).prints(FITS, "7\n8\n");
    run(["cut", &format!("@{message}"), "--before=8"]).prints(FITS, "7\n8\n");
    run(["cut", &message, "--before", "@none"]).is_bad("none: there is no such file\n");
}

#[test]
fn patterns_that_leave_no_room_for_the_cut() {
    let limits = "PATTERN: the pattern and an e-variable on each side of it pass the limits of a pattern\n";
    cut("'ab'", &format!("'{}'", "a".repeat(254))).is_no_match();
    cut("'ab'", &format!("'{}'", "a".repeat(255))).is_bad(limits);
    let variables = |count: usize| (0..count).map(|i| format!("e.{i} e.{i} ")).collect::<String>();
    cut("", &variables(62)).prints(FITS, "\n\n");
    cut("", &variables(63)).is_bad(limits);
}

#[test]
fn a_long_message_is_cut_and_joined_again() {
    let long = file("long", long_session(5_000));
    let ran = run(["cut", &long, "--before", "(Meter 1000 4000)"]);
    assert_eq!((ran.status, ran.err.as_str()), (NO_MATCH, "no match\n"));
    let ran = run(["cut", &long, "--before", "(Meter 1439 4319)"]);
    assert_eq!(ran.status, FITS, "{}", ran.err);
    let parts: Vec<String> = ran.out.lines().map(|line| file("part", line)).collect();
    assert_eq!(ran.out.lines().next().unwrap().matches("Meter").count(), 4_319);
    let ran = run(["join", &parts[0], &parts[1]]);
    assert!(ran.status == FITS && ran.out == long_session(5_000) + "\n", "{}", ran.err);
}
