//! Values of the copy of value.rs that shows its nodes.
pub use original::opened as value;
#[allow(clippy::duplicate_mod, reason = "the same text over another `value`")]
#[path = "values.rs"]
pub mod values;
