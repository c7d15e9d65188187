//! The Rust original, from its own files; build.rs says how. `opened` has the same text as `value`, and shows its nodes.
#![allow(dead_code)]

include!(concat!(env!("OUT_DIR"), "/modules.rs"));

pub use value::{UnknownKind, Value, ViewField};
