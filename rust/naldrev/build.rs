//! Finds the static library of the proved code and has it linked. In this order: the folder NALDREV_LIB_DIR; the repository that this package stands
//! in, where tools/build makes the library if it is missing or older than a source; the folder that pkg-config knows.
//!
//! Where none has it, that is a warning and no error, so that `cargo doc` and `cargo check` work without the library. A build then ends with the
//! compiler's "could not find native static library", below the warning that says how to get it.
use std::path::{Path, PathBuf};
use std::process::Command;

/// The library as the repository builds it, and as `make install` names it.
const FILES: [(&str, &str); 2] = [("librefal.a", "refal"), ("libnaldrev.a", "naldrev")];

fn warn(text: &str) {
    for line in text.lines() {
        println!("cargo:warning={line}");
    }
}

/// The repository's folder, if there is one: the nearest one above the package that has crates.txt and tools/build.
fn repository() -> Option<PathBuf> {
    let here = std::env::var_os("CARGO_MANIFEST_DIR")?;
    let stands = |folder: &&Path| folder.join("crates.txt").is_file() && folder.join("tools/build").is_file();
    Path::new(&here).ancestors().find(stands).map(Path::to_path_buf)
}

/// What the library is made of: crates.txt and the sources of each crate. Beside them rt keeps its own work, which changes with every check.
fn sources(root: &Path) -> Vec<PathBuf> {
    let crates = std::fs::read_dir(root.join("crates")).into_iter().flatten().flatten();
    let parts = crates.flat_map(|it| ["src", "specs", "proofs"].map(|part| it.path().join(part)));
    parts.filter(|it| it.is_dir()).chain([root.join("crates.txt")]).collect()
}

/// Has tools/build look whether the library is there and newer than its sources, and make it where it is not.
fn made(root: &Path) -> PathBuf {
    for source in sources(root) {
        println!("cargo:rerun-if-changed={}", source.display());
    }
    match Command::new(root.join("tools/build")).arg("library").output() {
        Ok(output) if output.status.success() => {}
        Ok(output) => warn(&String::from_utf8_lossy(&output.stderr)),
        Err(error) => warn(&format!("tools/build could not be run: {error}")),
    }
    root.join("target/staticlib")
}

/// The first two numbers of this crate's version, which a library has to have: another second number may have other calls, which would be called
/// with wrong arguments.
fn version() -> (u32, u32) {
    let number = |name: &str| std::env::var(name).ok().and_then(|digits| digits.parse().ok()).unwrap_or_default();
    (number("CARGO_PKG_VERSION_MAJOR"), number("CARGO_PKG_VERSION_MINOR"))
}

/// The folder of an installed library of this version.
fn installed() -> Option<PathBuf> {
    let ask = |args: &[&str]| Command::new("pkg-config").args(args).output().ok().filter(|output| output.status.success());
    let (major, minor) = version();
    ask(&["--exists", &format!("naldrev >= {major}.{minor}"), &format!("naldrev < {major}.{}", minor + 1)])?;
    let folder = String::from_utf8(ask(&["--variable=libdir", "naldrev"])?.stdout).ok()?;
    (!folder.trim().is_empty()).then(|| PathBuf::from(folder.trim()))
}

/// Has the next build run this script again: cargo does so where a file that it is to watch is missing.
fn look_again(folder: &Path) {
    println!("cargo:rerun-if-changed={}", folder.join(FILES[0].0).display());
}

fn main() {
    println!("cargo:rerun-if-env-changed=NALDREV_LIB_DIR");
    println!("cargo:rerun-if-env-changed=PKG_CONFIG_PATH");
    let given = std::env::var_os("NALDREV_LIB_DIR").filter(|folder| !folder.is_empty()).map(PathBuf::from);
    let Some(folder) = given.or_else(|| repository().map(|root| made(&root))).or_else(installed) else {
        let (major, minor) = version();
        warn(&format!(
            "no naldrev library of version {major}.{minor} was found. Install it (`make install` in the Naldrev repository, which needs"
        ));
        warn("the Rattle toolchain), or set NALDREV_LIB_DIR to the folder that holds librefal.a or libnaldrev.a. Without it nothing can be linked.");
        println!("cargo:rustc-link-lib=static=naldrev");
        look_again(Path::new(&std::env::var_os("OUT_DIR").unwrap_or_default()));
        return;
    };
    println!("cargo:rustc-link-search=native={}", folder.display());
    match FILES.iter().find(|(file, _)| folder.join(file).is_file()) {
        Some((file, library)) => {
            println!("cargo:rerun-if-changed={}", folder.join(file).display());
            println!("cargo:rustc-link-lib=static={library}");
        }
        None => {
            warn(&format!("neither librefal.a nor libnaldrev.a is in {}: nothing can be linked", folder.display()));
            println!("cargo:rustc-link-lib=static=naldrev");
            look_again(&folder);
        }
    }
}
