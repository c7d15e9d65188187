//! `naldrev sheet` and `naldrev answer`.

use super::*;

/// The examples with the arguments that make them, from the commands in examples/README.md: `    tools/naldrev sheet .. > examples/NAME.sheet`.
fn examples() -> Vec<(String, Vec<String>)> {
    let page = fs::read_to_string(root().join("examples/README.md")).unwrap();
    let commands = page.lines().filter_map(|line| line.strip_prefix("    tools/naldrev sheet ")?.split_once(" > "));
    commands.map(|(words, sheet)| (sheet.into(), split(words))).collect()
}

/// The words of a command line: parted by blanks, some in double quotes.
fn split(line: &str) -> Vec<String> {
    let parts = line.split('"').enumerate();
    let word = |(i, part): (usize, &str)| -> Vec<String> {
        if i % 2 == 1 {
            vec![part.into()]
        } else {
            part.split_whitespace().map(String::from).collect()
        }
    };
    parts.flat_map(word).collect()
}

fn bytes(path: &str) -> String {
    fs::read_to_string(root().join(path)).unwrap()
}

// ---- sheet ----

#[test]
fn the_examples_are_written_byte_for_byte() {
    let examples = examples();
    let sheets =
        fs::read_dir(root().join("examples")).unwrap().filter(|entry| entry.as_ref().unwrap().path().extension() == Some("sheet".as_ref()));
    assert_eq!(examples.len(), sheets.count());
    for (sheet, words) in examples {
        run(["sheet".into()].into_iter().chain(words)).prints(FITS, &bytes(&sheet));
    }
}

#[test]
fn a_sheet_keeps_each_name_once() {
    let sheet = "         3         3         2         1
         1         0         1         0         0
         2         1         1         0         0
         1         0         1         0         0
a7b
         1         0         1         0
         7         2         1         0
         0         3         0         0
";
    run(["sheet", "a 7 a", "a e.b"]).prints(FITS, sheet);
}

#[test]
fn a_level_stands_in_two_columns() {
    let sheet = "         4         1         1         1
         4         0         5         7         0
         4         1         5         7         1
         4         2         04294967295         0
         4         24294967295         24294967295
x
         7         0         1         0
         0         4         0         0
";
    run(["sheet", "?s.5.7 ?t.4294967301.7 ?e.0.4294967295 ?e.18446744073709551615.2", "e.x"]).prints(FITS, sheet);
}

#[test]
fn runs_and_pairs_that_cannot_be() {
    let with = |flag: &str, value: &str| run(["sheet", "'ab'", "e.1", flag, value]);
    for bad in ["x", "1", "1:", ":1", "1:1,", "+1:1", "1:1:1"] {
        with("--runs", bad).is_bad("naldrev sheet: --runs takes START:LENGTH,.. found ");
    }
    for past in ["0:3", "2:1", "18446744073709551615:1"] {
        with("--runs", past).is_bad(&format!("naldrev sheet: --runs: {past} ends past the message's outermost level, which has 2 terms\n"));
    }
    for bad in ["x", "-1", "256", ""] {
        with("--pairs", bad).is_bad("naldrev sheet: --pairs takes a number from 0 to 255, found ");
    }
    with("--pairs", "200").is_bad("naldrev sheet: terms of the message: ");
    assert_eq!(with("--runs", "").status, FITS);
    assert_eq!(with("--runs", "2:0,0:2").status, FITS);
}

#[test]
fn the_limits_of_a_sheet() {
    assert_eq!(run(["sheet", &"a ".repeat(512), "e.1"]).status, FITS);
    run(["sheet", &"a ".repeat(513), "e.1"]).is_bad("naldrev sheet: terms of the message: 513, and a sheet has at most 512\n");
    let names = |count: usize| (0..count).map(|i| format!("a{i:0254} ")).collect::<String>();
    assert_eq!(run(["sheet", &names(16), "e.1"]).status, FITS);
    run(["sheet", &names(17), "e.1"]).is_bad("naldrev sheet: bytes of names: ");
    let runs = |count: usize| ["0:1"].repeat(count).join(",");
    assert_eq!(run(["sheet", "a", "e.1", "--runs", &runs(64)]).status, FITS);
    run(["sheet", "a", "e.1", "--runs", &runs(65)]).is_bad("naldrev sheet: runs: 65, and a sheet has at most 64\n");
    let deep = format!("{}{}", "(".repeat(255), ")".repeat(255));
    run(["sheet", &deep, "e.1", "--pairs", "1"]).is_bad("naldrev sheet: --pairs: brackets would lie over 255 deep\n");
}

#[test]
fn texts_of_a_sheet_come_from_files_too() {
    let expected = bytes("examples/dashes.sheet");
    let message = file("message", "'--'\n");
    run(["sheet", &format!("@{message}"), "e.1 '-' e.2"]).prints(FITS, &expected);
    run_on(["sheet", "'--'", "-"], b"e.1 '-' e.2").prints(FITS, &expected);
    run(["sheet", "3.20", "e.1"]).is_bad("MESSAGE:1:1: ");
    run(["sheet", "7", "e.1 )"]).is_bad("PATTERN:1:5: ");
}

// ---- answer ----

const DASHES: &str = "0: 2 candidates
candidate 1
  e.1 =
  e.2 = '-'
candidate 2
  e.1 = '-'
  e.2 =
";

#[test]
fn an_answer_in_words() {
    run(["answer", "examples/dashes.sheet"]).prints(FITS, DASHES);
    run(["answer", "@examples/dashes.sheet"]).prints(FITS, DASHES);
    run(["answer", "examples/dashes.sheet", "examples/dashes.out"]).prints(FITS, DASHES);
    run_on(["answer", "examples/dashes.sheet", "-"], bytes("examples/dashes.out").as_bytes()).prints(FITS, DASHES);
    run_on(["answer", "-", "examples/dashes.out"], bytes("examples/dashes.sheet").as_bytes()).prints(FITS, DASHES);
    run_on(["answer", "-", "-"], b"").is_bad("-: standard input can be read only once\n");
}

#[test]
fn the_answer_of_session_is_that_of_its_page() {
    let ran = run(["answer", "examples/session.sheet"]);
    let page = bytes("examples/README.md");
    let indented: String = ran.out.lines().map(|line| format!("    {line}\n")).collect();
    assert!(ran.status == FITS && page.contains(&indented), "{ran:?}");
    let pattern = "Session s.point (Start s.from) e.meters (Stop s.to) (kWh s.energy)";
    let tried: String = run(["try", SESSION, pattern]).out.lines().map(|line| format!("    {line}\n")).collect();
    assert!(page.contains(&tried), "{tried}");
}

#[test]
fn a_message_of_several_runs_is_read_from_its_copy() {
    let out = "0: 1 candidate\ncandidate 1\n  s.point = Harbour-3\n  e.times = (Start 1015) (Stop 1140)\n  s.energy = 42\n";
    run(["answer", "examples/joined.sheet"]).prints(FITS, out);
}

#[test]
fn the_status_is_that_of_the_answers_number() {
    run(["answer", "examples/no-fit.sheet"]).prints(NO_MATCH, "refused, 10: the pattern does not fit\n");
    let call = "refused, 11: the pattern has a call or a block, which fits nothing, and a try reached it\n";
    run(["answer", "examples/call.sheet", "examples/call.out"]).prints(BAD, call);
    run_on(["answer", "-"], b"no sheet").prints(BAD, "refused, 16: the text is no sheet\n");
    let many = run(["answer", "examples/many.sheet"]);
    assert_eq!((many.status, many.out.matches("\ncandidate ").count()), (HELD, 16));
    assert!(many.out.starts_with("15: 16 candidates, and there are more\n"), "{}", many.out);
}

#[test]
fn an_answer_to_another_sheet() {
    let other = "examples/session.out: this is not the answer to the sheet\n";
    run(["answer", "examples/dashes.sheet", "examples/session.out"]).is_bad(other);
    run_on(["answer", "examples/dashes.sheet", "-"], b"").is_bad("-: this is not the answer to the sheet\n");
}

#[test]
fn terms_of_any_length_are_cut() {
    let ran = run(["answer", "examples/shared.sheet"]);
    assert!(ran.status == FITS && ran.out.ends_with(" ...\n") && ran.out.len() < 20_000, "{} bytes", ran.out.len());
}

#[test]
fn what_is_written_is_answered_as_it_is_tried() {
    for (message, pattern) in
        [(SESSION, "e.1 (Meter e.2) e.3"), ("'a' (b ('c'))", "e.1 (e.2)"), ("?s.1.2 ?t.3.4 ?e.18446744073709551615.9", "e.x"), ("", "e.x")]
    {
        let sheet = file("a.sheet", run(["sheet", message, pattern]).out);
        let answered = run(["answer", &sheet]);
        let tried = run(["try", message, pattern]);
        let names = |text: &str| text.lines().filter(|line| line.contains(" =")).map(|line| line.trim().into()).collect::<Vec<String>>();
        assert_eq!((answered.status, names(&answered.out)), (tried.status, names(&tried.out)));
    }
}
