//! Finds matcher.rs and value.rs (NALDREV_RUST_SOURCE, or beside the repository) and writes the modules that lib.rs includes. The two files
//! are compiled where they are. A second module, `opened`, is value.rs's text with the declaration of a child module after it, which sees its nodes.
use std::path::{Path, PathBuf};
use std::{env, fs};

const BESIDE: &str = "../../../../shared/docs/src/crates/refal-runtime/src";

fn source() -> PathBuf {
    println!("cargo:rerun-if-env-changed=NALDREV_RUST_SOURCE");
    let here = PathBuf::from(env::var("CARGO_MANIFEST_DIR").unwrap());
    let folder = env::var("NALDREV_RUST_SOURCE").map_or(here.join(BESIDE), PathBuf::from);
    folder.canonicalize().unwrap_or_else(|e| panic!("the Rust original is not at {}: {e}", folder.display()))
}

fn module(file: &Path, name: &str) -> String {
    println!("cargo:rerun-if-changed={}", file.display());
    format!("#[path = {file:?}]\npub mod {name};\n")
}

fn main() {
    let (folder, out) = (source(), PathBuf::from(env::var("OUT_DIR").unwrap()));
    let nodes = PathBuf::from(env::var("CARGO_MANIFEST_DIR").unwrap()).join("src/nodes.rs");
    let text = fs::read_to_string(folder.join("value.rs")).expect("value.rs");
    fs::write(out.join("opened.rs"), text + "\n" + &module(&nodes, "nodes")).unwrap();
    let modules = [
        module(&folder.join("matcher.rs"), "matcher"),
        module(&folder.join("value.rs"), "value"),
        module(&out.join("opened.rs"), "opened"),
    ];
    fs::write(out.join("modules.rs"), modules.concat()).unwrap();
}
