//! The examples of the documents: each command that is shown with what it prints is run, and has to print that.

use super::*;

const PAGES: [&str; 2] = ["docs/COMMAND.md", "examples/README.md"];
const INDENT: &str = "    ";
const PROMPT: &str = "    $ ";

/// The commands of a page, each with the indented lines below it.
fn shown(page: &str) -> Vec<(String, String)> {
    let mut found: Vec<(String, String)> = Vec::new();
    let mut inside = false;
    for line in page.lines() {
        if let Some(command) = line.strip_prefix(PROMPT) {
            found.push((command.into(), String::new()));
            inside = true;
        } else if let (true, Some(printed)) = (inside, line.strip_prefix(INDENT)) {
            found.last_mut().unwrap().1 += &format!("{printed}\n");
        } else {
            inside = false;
        }
    }
    found
}

#[test]
fn the_documents_show_what_is_printed() {
    for page in PAGES {
        let commands = shown(&fs::read_to_string(root().join(page)).unwrap());
        assert!(!commands.is_empty(), "{page}");
        for (command, printed) in commands {
            let line = command.replace("tools/naldrev", "\"$NALDREV\"");
            let mut shell = Command::new("bash");
            shell.current_dir(root()).env("NALDREV", env!("CARGO_BIN_EXE_naldrev")).args(["-c", &format!("{{ {line}; }} 2>&1")]);
            let output = shell.output().unwrap();
            assert_eq!(String::from_utf8_lossy(&output.stdout), printed, "{page}: {command}");
        }
    }
}
