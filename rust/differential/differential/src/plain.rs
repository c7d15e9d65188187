//! Values of value.rs.
pub use original::value;
#[allow(clippy::duplicate_mod, reason = "the same text over another `value`")]
#[path = "values.rs"]
pub mod values;
