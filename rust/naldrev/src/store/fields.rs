//! The calls on fields.

use super::{Field, Flat, Run, Store};
use crate::records::RUN_WIDTH;
use crate::value::Value;
use crate::{ffi, Error};

impl Store {
    /// Adds values and makes one field of them: a message.
    pub fn message(&mut self, values: &[Value]) -> Result<Field, Error> {
        self.all_or_nothing(|store| {
            let run = store.add(values)?;
            store.from_runs(&[run])
        })
    }

    /// The terms of runs, in order; at most 64 runs.
    #[allow(clippy::wrong_self_convention)] // the library's name
    pub fn from_runs(&mut self, runs: &[Run]) -> Result<Field, Error> {
        let mut words = Vec::with_capacity(runs.len() * RUN_WIDTH);
        for run in runs {
            self.check_run(*run)?;
            words.extend(run.words()?);
        }
        self.building(|t, n| ffi::from_runs(t, n, &words))
    }

    /// The left's terms, then the right's.
    pub fn join(&mut self, left: Field, right: Field) -> Result<Field, Error> {
        let (left, right) = (self.check_field(left)?, self.check_field(right)?);
        self.building(|t, n| ffi::join(t, n, left, right))
    }

    /// The first `count` terms of a field.
    pub fn take(&self, field: Field, count: usize) -> Result<Field, Error> {
        let pair = ffi::take(self.lent_terms(), self.lent_nodes(), self.check_field(field)?, count)?;
        Ok(Field::new(pair, self.history.now()))
    }

    /// A field without its first `count` terms.
    pub fn rest(&mut self, field: Field, count: usize) -> Result<Field, Error> {
        let field = self.check_field(field)?;
        self.building(|t, n| ffi::rest(t, n, field, count))
    }

    /// `count` terms of a field after its first `start`.
    pub fn range(&mut self, field: Field, start: usize, count: usize) -> Result<Field, Error> {
        let field = self.check_field(field)?;
        self.building(|t, n| ffi::range(t, n, field, start, count))
    }

    /// Whether a field starts with another's terms.
    pub fn starts_with(&self, field: Field, front: Field) -> Result<bool, Error> {
        let (field, front) = (self.check_field(field)?, self.check_field(front)?);
        Ok(ffi::starts_with(self.lent_terms(), self.lent_nodes(), field, front)?)
    }

    /// Whether two fields hold equal terms.
    pub fn equal(&self, left: Field, right: Field) -> Result<bool, Error> {
        let (left, right) = (self.check_field(left)?, self.check_field(right)?);
        Ok(ffi::equal(self.lent_terms(), self.lent_nodes(), left, right)?)
    }

    /// Whether two runs hold equal terms.
    pub fn compare_runs(&self, first: Run, second: Run) -> Result<bool, Error> {
        let (first, second) = (self.check_run(first)?, self.check_run(second)?);
        Ok(ffi::compare_runs(self.lent_terms(), first, second)?)
    }

    /// A field's terms as one run, copied to the work buffer where they are scattered. Its length is a multiple of [`crate::TERM_WIDTH`].
    pub fn flatten(&self, field: Field, work: &mut [u32]) -> Result<Flat, Error> {
        let (in_work, start, count) = ffi::flatten(self.lent_terms(), self.lent_nodes(), self.check_field(field)?, work)?;
        Ok(if in_work { Flat::InWork(count) } else { Flat::InStore(self.run(start, count)) })
    }
}
