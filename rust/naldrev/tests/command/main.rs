//! The command `naldrev`, run as a program: what it prints, where, and with which exit status.

use std::ffi::OsStr;
use std::fs::{self, File};
use std::io::Write;
use std::path::{Path, PathBuf};
use std::process::{Command, Stdio};
use std::sync::atomic::{AtomicUsize, Ordering};
use std::sync::OnceLock;

mod json;
mod manual;
mod outputs;
mod ropes;
mod sheets;
mod tariff;
mod try_pattern;
mod usage;

const FITS: i32 = 0;
const NO_MATCH: i32 = 1;
const BAD: i32 = 2;
const HELD: i32 = 3;

/// How a run ended and what it printed.
#[derive(Debug)]
struct Ran {
    status: i32,
    out: String,
    err: String,
}

impl Ran {
    /// Checks the status and standard output; standard error has to be empty.
    #[track_caller]
    fn prints(&self, status: i32, out: &str) {
        assert_eq!((self.status, self.out.as_str(), self.err.as_str()), (status, out, ""));
    }

    /// Checks that the input was found bad: a line that begins so on standard error, nothing on standard output.
    #[track_caller]
    fn is_bad(&self, begin: &str) {
        assert_eq!((self.status, self.out.as_str()), (BAD, ""), "{self:?}");
        assert!(self.err.starts_with(begin) && self.err.ends_with('\n'), "expected {begin}, found {self:?}");
    }

    /// Checks that nothing fits.
    #[track_caller]
    fn is_no_match(&self) {
        assert_eq!((self.status, self.out.as_str(), self.err.as_str()), (NO_MATCH, "", "no match\n"));
    }
}

/// The repository's folder, in which the program is run.
fn root() -> PathBuf {
    Path::new(env!("CARGO_MANIFEST_DIR")).join("../..")
}

fn program() -> Command {
    let mut command = Command::new(env!("CARGO_BIN_EXE_naldrev"));
    command.current_dir(root()).stdin(Stdio::null());
    command
}

fn run(words: impl IntoIterator<Item = impl AsRef<OsStr>>) -> Ran {
    run_on(words, b"")
}

/// Runs the program with this standard input.
fn run_on(words: impl IntoIterator<Item = impl AsRef<OsStr>>, input: &[u8]) -> Ran {
    let mut command = program();
    command.args(words).stdin(Stdio::piped()).stdout(Stdio::piped()).stderr(Stdio::piped());
    let mut child = command.spawn().unwrap();
    // The program may end without reading all of it.
    let _ = child.stdin.take().unwrap().write_all(input);
    let output = child.wait_with_output().unwrap();
    let text = |bytes| String::from_utf8(bytes).unwrap();
    Ran { status: output.status.code().unwrap(), out: text(output.stdout), err: text(output.stderr) }
}

/// This process's folder for files; those of processes that have ended are removed.
fn scratch() -> &'static Path {
    static FOLDER: OnceLock<PathBuf> = OnceLock::new();
    FOLDER.get_or_init(|| {
        let all = Path::new(env!("CARGO_TARGET_TMPDIR")).join("command");
        for old in fs::read_dir(&all).into_iter().flatten().flatten() {
            if !Path::new("/proc").join(old.file_name()).exists() {
                // Another process may be removing it too.
                let _ = fs::remove_dir_all(old.path());
            }
        }
        all.join(std::process::id().to_string())
    })
}

/// A file with this text, in a folder of its own, so that tests can run at the same time.
fn file(name: &str, text: impl AsRef<[u8]>) -> String {
    static NEXT: AtomicUsize = AtomicUsize::new(0);
    let folder = scratch().join(NEXT.fetch_add(1, Ordering::Relaxed).to_string());
    fs::create_dir_all(&folder).unwrap();
    let path = folder.join(name);
    File::create(&path).unwrap().write_all(text.as_ref()).unwrap();
    path.to_str().unwrap().into()
}

const SESSION: &str = "Session Harbour-3 (Start 1015) (Meter 1015 1208) (Meter 1140 1250) (Stop 1140) (kWh 42)";

/// A session with so many readings of four terms each, and six terms besides.
fn long_session(readings: usize) -> String {
    let mut text = String::from("Session Harbour-3");
    for i in 0..readings {
        text += &format!(" (Meter {:04} {:04})", i % 1440, i % 5000);
    }
    text + " (kWh 42)"
}
