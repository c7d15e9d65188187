//! `naldrev tariff`.

use super::*;

use std::io::{BufRead, BufReader};
use std::process::Child;
use std::time::{Duration, Instant};

const PRICES: &str = "* prices
Day-rate: Session s.point (Day) e.rest = Line s.point;
Night-rate: Session s.point (Night) e.rest = Line s.point;
Session s.point (Free) = ;
Night-cap: e.1 (Night) e.2 (Cap s.most) = ;
";

fn tariff(options: &[&str], prices: &str, messages: &str) -> (Ran, String) {
    let [prices, messages] = [file("prices.ref", prices), file("messages.txt", messages)];
    (run(["tariff"].iter().chain(options).copied().chain([prices.as_str(), messages.as_str()])), messages)
}

/// Runs on [`PRICES`]; `FILE` in what is expected stands for the file of messages.
#[track_caller]
fn prices(options: &[&str], messages: &str, status: i32, out: &str) {
    let (ran, file) = tariff(options, PRICES, messages);
    ran.prints(status, &out.replace("FILE", &file));
}

#[test]
fn each_message_has_its_sentence() {
    let out = "FILE:1: Day-rate\nFILE:3: Night-rate\nFILE:4: sentence 3\n3 messages: 3 priced, 0 held back, 0 without a sentence\n";
    prices(&[], "Session A (Day)\n* Tuesday\nSession B (Night) (kWh 7)\nSession C (Free)\n", FITS, out);
}

#[test]
fn a_message_without_a_sentence() {
    let out = "FILE:1: no sentence fits\nFILE:2: Day-rate\n2 messages: 1 priced, 0 held back, 1 without a sentence\n";
    prices(&[], "Session A\nSession A (Day)", NO_MATCH, out);
}

#[test]
fn a_message_that_two_sentences_fit() {
    let out =
        "FILE:1: held back: Night-rate, Night-cap\nFILE:2: no sentence fits\n2 messages: 0 priced, 1 held back, 1 without a sentence\n";
    prices(&[], "Session A (Night) (Cap 7)\nSession A", HELD, out);
}

#[test]
fn one_message_and_none() {
    prices(&[], "Session A (Day)", FITS, "FILE:1: Day-rate\n1 message: 1 priced, 0 held back, 0 without a sentence\n");
    prices(&[], "\n* nothing\n", FITS, "0 messages: 0 priced, 0 held back, 0 without a sentence\n");
}

#[test]
fn lines_and_paragraphs() {
    let text = "Session A\n(Day)\n\nSession B (Night)\n";
    let paragraphs = "FILE:1: Day-rate\nFILE:4: Night-rate\n2 messages: 2 priced, 0 held back, 0 without a sentence\n";
    prices(&[], text, FITS, paragraphs);
    prices(&["--paragraphs"], text, FITS, paragraphs);
    let lines =
        "FILE:1: no sentence fits\nFILE:2: no sentence fits\nFILE:4: Night-rate\n3 messages: 1 priced, 0 held back, 2 without a sentence\n";
    prices(&["--lines"], text, NO_MATCH, lines);
    prices(&["--paragraphs"], "Session A\n(Day)\n", FITS, "FILE:1: Day-rate\n1 message: 1 priced, 0 held back, 0 without a sentence\n");
    // Blank lines between two days: no session may become a part of another.
    let days = "Session A (Day)\nSession B (Night)\n\nSession C (Free)\n";
    let (ran, file) = tariff(&[], PRICES, days);
    ran.is_bad(&format!("{file}:2:1: this line begins as its paragraph does"));
    let out = "FILE:1: Day-rate\nFILE:2: Night-rate\nFILE:4: sentence 3\n3 messages: 3 priced, 0 held back, 0 without a sentence\n";
    prices(&["--lines"], days, FITS, out);
    let (ran, _) = tariff(&["--lines", "--paragraphs"], PRICES, text);
    ran.is_bad("naldrev tariff: --lines and --paragraphs exclude each other\n");
}

#[test]
fn overlaps_are_counted() {
    let messages = "Session A (Day)\nSession B (Night) (Cap 7)\nSession (Night) (Cap 8)\nSession C (Night) (Cap 9)\n";
    let out = "FILE:1: Day-rate
FILE:2: held back: Night-rate, Night-cap
FILE:3: Night-cap
FILE:4: held back: Night-rate, Night-cap
4 messages: 2 priced, 2 held back, 0 without a sentence
overlap: Night-rate, Night-cap: 2 messages, first FILE:2
";
    prices(&["--overlaps"], messages, HELD, out);
    let (ran, file) = tariff(&["--overlaps"], "e.1; 7 e.1; s.1;", "7\n8\n");
    let out = "FILE:1: held back: sentence 1, sentence 2
FILE:2: held back: sentence 1, sentence 3
2 messages: 0 priced, 2 held back, 0 without a sentence
overlap: sentence 1, sentence 2: 1 message, first FILE:1
overlap: sentence 1, sentence 3: 2 messages, first FILE:1
overlap: sentence 2, sentence 3: 1 message, first FILE:1
";
    ran.prints(HELD, &out.replace("FILE", &file));
    let out = "FILE:1: Day-rate\n1 message: 1 priced, 0 held back, 0 without a sentence\nno overlaps\n";
    prices(&["--overlaps"], "Session A (Day)", FITS, out);
}

#[test]
fn several_files_and_standard_input() {
    let [prices, first] = [file("prices.ref", PRICES), file("first.txt", "Session A (Day)")];
    let ran = run_on(["tariff", &prices, &first, "-"], b"Session B (Night)\n");
    ran.prints(FITS, &format!("{first}:1: Day-rate\n-:1: Night-rate\n2 messages: 2 priced, 0 held back, 0 without a sentence\n"));
    let ran = run_on(["tariff", "-", &first], PRICES.as_bytes());
    ran.prints(FITS, &format!("{first}:1: Day-rate\n1 message: 1 priced, 0 held back, 0 without a sentence\n"));
    run_on(["tariff", &prices, "-", "-"], b"").is_bad("-: standard input can be read only once\n");
}

#[test]
fn bad_files_are_found_before_anything_is_printed() {
    let [prices, good] = [file("prices.ref", PRICES), file("good.txt", "Session A (Day)")];
    let bad = file("bad.txt", "Session A (Day)\nSession A (kWh 12kWh)\n");
    run(["tariff", &prices, &good, &bad]).is_bad(&format!("{bad}:2:16: "));
    let bad = file("bad.ref", "A: e.1;\nA: e.2;\n");
    run(["tariff", &bad, &good]).is_bad(&format!("{bad}:2:1: "));
    let bad = file("bad.ref", "A: e.1, e.1: 7 = ;\n");
    run(["tariff", &bad, &good]).is_bad(&format!("{bad}:1:7: "));
    let empty = file("empty.ref", "* nothing\n");
    run(["tariff", &empty, &good]).is_bad(&format!("{empty}: there is no sentence in it\n"));
}

/// So many names of 255 bytes.
fn names(count: usize, letter: char) -> String {
    (0..count).map(|i| format!("{letter}{i:0254} ")).collect()
}

#[test]
fn a_message_that_cannot_be_tried_is_named_and_the_others_are_answered() {
    let many = names(257, 'a');
    let (ran, file) = tariff(&[], PRICES, &format!("Session A (Day)\n{many}\nSession B\nSession C (Night)\n"));
    let out = "FILE:1: Day-rate
FILE:2: not tried
FILE:3: no sentence fits
FILE:4: Night-rate
4 messages: 2 priced, 0 held back, 1 without a sentence, 1 not tried
";
    assert_eq!((ran.status, ran.out.as_str()), (BAD, out.replace("FILE", &file).as_str()));
    assert!(ran.err.starts_with(&format!("{file}:2: ")) && ran.err.contains("bytes together"), "{}", ran.err);
    let (ran, file) = tariff(&[], PRICES, &format!("{}\nSession C (Night)\n", "a ".repeat(65_537)));
    assert_eq!(ran.status, BAD);
    assert!(ran.out.starts_with(&format!("{file}:1: not tried\n{file}:2: Night-rate\n")), "{}", ran.out);
    assert!(ran.err.starts_with(&format!("{file}:1: the terms are over 65536 together")), "{}", ran.err);
}

#[test]
fn sentences_and_one_message_share_the_names() {
    // 129 * 255 bytes of names twice are over 65,536.
    let price = format!("First: {} = ;\nSecond: e.1 = ;", names(129, 'a'));
    let (ran, _) = tariff(&[], &price, &names(129, 'b'));
    assert_eq!((ran.status, ran.out.contains("not tried")), (BAD, true), "{}", ran.err);
    let (ran, file) = tariff(&[], &price, &format!("{}\n{}\n", names(127, 'b'), names(127, 'c')));
    let out = "FILE:1: Second\nFILE:2: Second\n2 messages: 2 priced, 0 held back, 0 without a sentence\n";
    ran.prints(FITS, &out.replace("FILE", &file));
    let (ran, _) = tariff(&[], &format!("First: {} = ;\nSecond: {} = ;", names(129, 'a'), names(129, 'b')), "7");
    assert!(ran.status == BAD && ran.out.is_empty() && ran.err.contains(":2: Second: "), "{}", ran.err);
}

#[test]
fn a_week_of_long_messages() {
    let week: String = (0..20).map(|_| long_session(5_000) + "\n").collect();
    let (ran, file) = tariff(&[], "Metered: Session s.point e.meters (kWh s.energy) = ;\nOther: e.1 (Idle e.2) e.3 = ;", &week);
    assert_eq!((ran.status, ran.err.as_str()), (FITS, ""));
    assert!(ran.out.starts_with(&format!("{file}:1: Metered\n{file}:2: Metered\n")));
    assert!(ran.out.ends_with("20 messages: 20 priced, 0 held back, 0 without a sentence\n"));
}

#[test]
fn the_example() {
    let folder = "examples/tariff";
    let files = ["prices.ref", "monday.txt", "roaming.txt"].map(|name| format!("{folder}/{name}"));
    let ran = run(["tariff", "--overlaps"].into_iter().chain(files.iter().map(String::as_str)));
    ran.prints(HELD, &fs::read_to_string(root().join(folder).join("week.out")).unwrap());
}

// ---- progress ----

/// A run that goes on for hours: the e-variables can be tried in very many ways, since what stands between them is equal everywhere.
fn endless(options: &[&str]) -> (Child, String) {
    let prices = file("slow.ref", "Slow: e.1 (s.x) e.2 (s.x) e.3 (s.x) e.4 (s.x) e.5 (s.x) e.6 (s.y) Last e.7 = ;");
    let messages = file("slow.txt", "(7) ".repeat(400));
    let child = program().arg("tariff").args(options).args([&prices, &messages]).stdout(Stdio::null()).stderr(Stdio::piped()).spawn();
    (child.unwrap(), messages)
}

#[test]
fn long_work_is_reported_where_it_is_asked_for() {
    let start = Instant::now();
    let (mut child, messages) = endless(&["--progress"]);
    let mut lines = BufReader::new(child.stderr.take().unwrap()).lines().map(|line| (start.elapsed(), line.unwrap()));
    let reports = [lines.next().unwrap(), lines.next().unwrap()];
    child.kill().unwrap();
    child.wait().unwrap();
    for (i, (time, line)) in reports.iter().enumerate() {
        assert!(*time >= Duration::from_secs(3 + i as u64), "{reports:?}");
        assert_eq!(*line, format!("{messages}:1: message 1 of 1"));
    }
}

#[test]
fn no_reports_where_nobody_looks() {
    let (mut child, _) = endless(&[]);
    std::thread::sleep(Duration::from_millis(4_500));
    child.kill().unwrap();
    assert_eq!(child.wait_with_output().unwrap().stderr, b"");
}
