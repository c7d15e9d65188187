//! Outputs that cannot be written, and an input that cannot be read.

use super::*;

/// Every command with arguments that print something, from the repository's folder.
fn printing() -> Vec<Vec<&'static str>> {
    let join = ["examples/tariff/start.txt", "examples/tariff/stop.txt"];
    vec![
        vec!["--help"],
        vec!["--version"],
        vec!["try", "--help"],
        vec!["try", "7", "e.1"],
        vec!["try", "--json", "7", "8"],
        vec!["tariff", "examples/tariff/prices.ref", "examples/tariff/monday.txt"],
        vec!["join", join[0], join[1]],
        vec!["cut", join[0], "--before", "(Start s.time)"],
        vec!["sheet", "7", "e.1"],
        vec!["answer", "examples/session.sheet"],
        vec!["answer", "examples/no-fit.sheet"],
    ]
}

/// Checks that the program says so where its standard output cannot be written.
#[track_caller]
fn fails_on(output: impl Fn() -> Stdio) {
    for words in printing() {
        assert!(run(&words).out.len() > 1, "{words:?} prints something");
        let ran = program().args(&words).stdout(output()).stderr(Stdio::piped()).output().unwrap();
        let said = String::from_utf8(ran.stderr).unwrap();
        assert_eq!(ran.status.code(), Some(BAD), "{words:?}: {said}");
        assert!(said.contains("naldrev: standard output cannot be written: "), "{words:?}: {said}");
    }
}

#[test]
fn a_full_device() {
    fails_on(|| File::options().write(true).open("/dev/full").unwrap().into());
}

#[test]
fn an_output_that_is_open_for_reading_only() {
    fails_on(|| File::open("/dev/null").unwrap().into());
}

#[test]
fn a_pipe_that_nobody_reads() {
    fails_on(|| {
        let (reader, writer) = std::io::pipe().unwrap();
        drop(reader);
        writer.into()
    });
}

#[test]
fn a_long_output_that_ends_in_the_middle() {
    let message = file("long.txt", long_session(5_000));
    let mut child =
        program().args(["try", &format!("@{message}"), "e.1 e.2"]).stdout(Stdio::piped()).stderr(Stdio::piped()).spawn().unwrap();
    drop(child.stdout.take());
    let ran = child.wait_with_output().unwrap();
    assert_eq!(ran.status.code(), Some(BAD));
}

#[test]
fn a_full_standard_error_changes_no_status() {
    let full = || Stdio::from(File::options().write(true).open("/dev/full").unwrap());
    for (words, status) in [(["try", "7", "8"], NO_MATCH), (["try", "7", "("], BAD), (["nothing", "7", "8"], BAD)] {
        let ran = program().args(words).stdout(Stdio::null()).stderr(full()).status().unwrap();
        assert_eq!(ran.code(), Some(status), "{words:?}");
    }
}

#[test]
fn an_input_that_is_open_for_writing_only() {
    for words in [["try", "-", "e.1"], ["join", "-", "examples/tariff/stop.txt"], ["tariff", "examples/tariff/prices.ref", "-"]] {
        let input = File::options().write(true).open("/dev/null").unwrap();
        let ran = program().args(words).stdin(input).output().unwrap();
        let said = String::from_utf8(ran.stderr).unwrap();
        assert_eq!((ran.status.code(), ran.stdout.len()), (Some(BAD), 0), "{words:?}: {said}");
        assert!(said.starts_with("-: cannot be read: "), "{words:?}: {said}");
    }
}
