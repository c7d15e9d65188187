//! Help, versions, arguments that are not understood, files that cannot be read.

use super::*;

use std::os::unix::ffi::OsStrExt;

const COMMANDS: [&str; 6] = ["try", "tariff", "join", "cut", "sheet", "answer"];

#[test]
fn help_everywhere() {
    for word in ["--help", "-h"] {
        let help = run([word]);
        assert!(help.status == FITS && help.err.is_empty() && help.out.starts_with("usage: naldrev COMMAND"), "{help:?}");
        for command in COMMANDS {
            assert!(help.out.contains(&format!("\n  {command} ")), "{command} in {help:?}");
            let help = run([command, "x", word]);
            assert!(help.status == FITS && help.err.is_empty(), "{help:?}");
            assert!(help.out.starts_with(&format!("usage: naldrev {command} ")) && help.out.contains("Exit status: 0 "), "{help:?}");
        }
    }
}

#[test]
fn the_version_everywhere() {
    let version = format!("naldrev {}\n", env!("CARGO_PKG_VERSION"));
    for word in ["--version", "-V"] {
        run([word]).prints(FITS, &version);
        for command in COMMANDS {
            run([command, word]).prints(FITS, &version);
        }
    }
}

#[test]
fn what_was_expected_is_said() {
    run([""; 0]).is_bad("naldrev: expected a command\nusage: naldrev COMMAND");
    run(["match"]).is_bad("naldrev: expected a command, found match\n");
    run(["--first"]).is_bad("naldrev: expected a command, found --first\n");
    run(["try", "7"]).is_bad("naldrev try: expected MESSAGE and PATTERN, found 1 argument\nusage: naldrev try ");
    run(["try", "7", "7", "7"]).is_bad("naldrev try: expected MESSAGE and PATTERN, found 3 arguments\n");
    run(["tariff", "x"]).is_bad("naldrev tariff: expected SENTENCES and at least one file of messages, found 1 argument\n");
    run(["join", "x"]).is_bad("naldrev join: expected two files, found 1 argument\n");
    run(["cut"]).is_bad("naldrev cut: expected one file, found 0 arguments\n");
    run(["cut", "x"]).is_bad("naldrev cut: expected --before PATTERN\n");
    run(["sheet", "x"]).is_bad("naldrev sheet: expected MESSAGE and PATTERN, found 1 argument\n");
    run(["answer"]).is_bad("naldrev answer: expected SHEET, or SHEET and ANSWER, found 0 arguments\n");
}

#[test]
fn options_that_are_not_understood() {
    run(["try", "--all", "7", "7"]).is_bad("naldrev try: there is no option --all\n");
    run(["try", "-x", "7"]).is_bad("naldrev try: there is no option -x\n");
    run(["join", "--first", "a", "b"]).is_bad("naldrev join: there is no option --first\n");
    run(["try", "--first", "--first", "7", "7"]).is_bad("naldrev try: --first is given twice\n");
    run(["try", "--first=1", "7", "7"]).is_bad("naldrev try: --first takes no value\n");
    run(["try", "7", "7", "--max"]).is_bad("naldrev try: --max takes a value: --max N\n");
}

#[test]
fn two_dashes_end_the_options() {
    run(["try", "--", "7", "7"]).prints(FITS, "fits\n");
    run(["try", "--", "7", "--help"]).is_bad("PATTERN:1:1: ");
}

#[test]
fn files_that_cannot_be_read() {
    let folder = env!("CARGO_TARGET_TMPDIR");
    for words in
        [["try", "@none", "e.1"], ["try", "7", "@none"], ["join", "none", "none"], ["tariff", "none", "none"], ["answer", "none", "x"]]
    {
        run(words).is_bad("none: there is no such file\n");
    }
    run(["cut", "none", "--before", "7"]).is_bad("none: there is no such file\n");
    run(["sheet", "@none", "7"]).is_bad("none: there is no such file\n");
    for words in [["try", &format!("@{folder}"), "e.1"], ["join", folder, folder], ["tariff", folder, folder]] {
        run(words).is_bad(&format!("{folder}: a folder, not a file\n"));
    }
    run(["answer", folder]).is_bad(&format!("{folder}: a folder, not a file\n"));
    run(["try", "@", "e.1"]).is_bad("expected a file, found \"@\"\n");
    run(["answer", ""]).is_bad("expected a file, found \"\"\n");
}

#[test]
fn a_byte_order_mark_is_no_part_of_a_file() {
    let message = file("mark.txt", b"\xEF\xBB\xBF* Monday\r\nSession A\r\n");
    let sentences = file("mark.ref", b"\xEF\xBB\xBFAny: Session s.point;");
    run(["try", &format!("@{message}"), "e.1"]).prints(FITS, "e.1 = Session A\n");
    run(["join", &message, &message]).prints(FITS, "Session A Session A\n");
    let out = format!("{message}:2: Any\n1 message: 1 priced, 0 held back, 0 without a sentence\n");
    run(["tariff", &sentences, &message]).prints(FITS, &out);
    let bad = file("mark.txt", b"\xEF\xBB\xBF10:15");
    run(["join", &bad, &bad]).is_bad(&format!("{bad}:1:1: "));
}

#[test]
fn bytes_that_are_not_utf_8() {
    let bad = file("bytes.txt", b"Session\n'\xc3\xa9' \xff\n");
    let place = format!("{bad}:2:5: the byte 0xff is not UTF-8\n");
    run(["try", &format!("@{bad}"), "e.1"]).is_bad(&place);
    run(["join", &bad, &bad]).is_bad(&place);
    run(["tariff", &bad, &bad]).is_bad(&place);
    run(["cut", &bad, "--before", "7"]).is_bad(&place);
    run_on(["cut", "-", "--before", "7"], b"\x80").is_bad("-:1:1: the byte 0x80 is not UTF-8\n");
    let argument = OsStr::from_bytes(b"'a\xff'");
    run([OsStr::new("try"), argument, OsStr::new("e.1")]).is_bad("MESSAGE:1:3: the byte 0xff is not UTF-8\n");
    run([OsStr::new("try"), OsStr::new("7"), argument]).is_bad("PATTERN:1:3: the byte 0xff is not UTF-8\n");
    run([OsStr::new("try"), OsStr::new("7"), OsStr::new("s.x"), OsStr::new("--bind"), argument])
        .is_bad("--bind 1:1:3: the byte 0xff is not UTF-8\n");
    run([OsStr::new("join"), argument, argument]).is_bad("'a\u{fffd}': there is no such file\n");
    run([argument]).is_bad("naldrev: expected a command, found 'a\u{fffd}'\n");
}
