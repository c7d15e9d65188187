//! A safe interface to Naldrev, a Refal-5 pattern matcher whose every function is proved to meet its contract. What is proved is the static
//! library that this crate links; this crate owns the stores that the library is lent, lets them grow, and turns numbers into enums.
//!
//! A [`Store`] holds terms and the ropes of which messages are made. A message is read from a text as an [`Expression`], and [`Store::message`] makes
//! a [`Field`] of it; fields are joined, cut and compared. A [`Pattern`] is read from a text too, and [`Store::prepare`] makes it ready for the
//! store. [`Store::candidates`] lists the ways in which it fits a field.
//!
//! ```
//! use naldrev::{Bindings, Expression, Pattern, Store};
//!
//! let mut store = Store::new();
//! let message = store.message(&"'--'".parse::<Expression>()?)?;
//! let pattern = store.prepare(&"e.1 '-' e.2".parse::<Pattern>()?)?;
//! let listing = store.candidates(message, &pattern, &Bindings::NONE, 16)?;
//! assert_eq!(listing.len(), 2);
//! assert!(!listing.more());
//!
//! // e.1 is empty first.
//! let first = listing.get(0).unwrap();
//! assert!(first.run("e.1").unwrap().is_empty());
//! assert_eq!(first.get(&store, "e.2")?.unwrap().to_string(), "'-'");
//! # Ok::<(), naldrev::Error>(())
//! ```
//!
//! Handles (fields, runs, prepared patterns, bindings, marks) know the store that made them: another store refuses them. A store only fills; thousands
//! of messages go through one store with [`Store::mark`] and [`Store::put_back`].
//!
//! A store may be sent to another thread, and be read by several at once. A thread that uses this crate needs some stack: up to [`STACK_BYTES`] for
//! a call of the library, and in a build without optimization somewhat more for brackets 255 deep. 1 MB is enough; Rust's threads have 2 MB.
//!
//! A [`Sheet`] has terms, names, a pattern and runs as one text, and [`run_sheet`] answers it with one. [`sys`] has the library's functions as C
//! declares them.
#![deny(missing_docs, unsafe_code)]

mod error;
#[allow(unsafe_code)]
#[rustfmt::skip]
mod ffi;
mod pattern;
mod records;
mod refusal;
mod sheet;
mod store;
#[rustfmt::skip]
pub mod sys;
mod text;
mod value;

pub use error::Error;
pub use pattern::{e, s, t, Item, Pattern, Variable, VariableKind};
pub use records::{BINDING_WIDTH, NODE_WIDTH, PATTERN_WIDTH, RUN_WIDTH, TERM_WIDTH};
pub use records::{MAX_DEPTH, MAX_NAMES, MAX_NESTING, MAX_NODES, MAX_RECORDS, MAX_RUNS, MAX_TERMS, MAX_TEXT, MAX_VARIABLES, STACK_BYTES};
pub use refusal::Refusal;
pub use sheet::{run_sheet, Sheet, SHEET_NAMES, SHEET_TERMS};
pub use store::MAX_VALUES;
pub use store::{Bindings, Candidate, Capacity, Field, Flat, Listing, Mark, Prepared, Run, Store, Terms};
pub use text::{messages, sentences, Layout, Message, Sentence, TextError};
pub use value::{Expression, UnknownKind, Value};

/// The example of the README, run as a test.
#[cfg(doctest)]
#[doc = include_str!("../README.md")]
struct Readme;
