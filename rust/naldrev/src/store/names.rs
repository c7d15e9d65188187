//! The names of a store: one text in which identifiers, numbers and names of variables stand, each once.

use std::collections::HashMap;
use std::sync::Arc;

use crate::records::MAX_NAMES;
use crate::Error;

#[derive(Debug, Default)]
pub(super) struct Names {
    bytes: Vec<u8>,
    /// Where each text that was added here starts.
    places: HashMap<Arc<str>, u32>,
    /// These texts in the order in which they were added.
    added: Vec<(u32, Arc<str>)>,
}

impl Names {
    /// Bytes made elsewhere. Which texts stand in them is not known, so a text that comes again is added again.
    pub(super) fn of(bytes: Vec<u8>) -> Names {
        Names { bytes, ..Names::default() }
    }

    pub(super) fn bytes(&self) -> &[u8] {
        &self.bytes
    }

    /// Start and length of a text, which is added if it does not stand here yet.
    pub(super) fn place(&mut self, text: &str) -> Result<[u32; 2], Error> {
        let word = |n: usize| u32::try_from(n).map_err(|_| Error::NamesFull);
        let len = word(text.len())?;
        if let Some(at) = self.places.get(text) {
            return Ok([*at, len]);
        }
        let at = word(self.bytes.len())?;
        if self.bytes.len() + text.len() > MAX_NAMES {
            return Err(Error::NamesFull);
        }
        self.bytes.extend_from_slice(text.as_bytes());
        let text: Arc<str> = text.into();
        self.places.insert(text.clone(), at);
        self.added.push((at, text));
        Ok([at, len])
    }

    /// Keeps the first `len` bytes and the texts that stand in them.
    pub(super) fn truncate(&mut self, len: usize) {
        self.bytes.truncate(len);
        while let Some((at, text)) = self.added.last().filter(|(at, text)| *at as usize + text.len() > len) {
            debug_assert!(*at as usize >= len, "a mark cuts no text");
            self.places.remove(text);
            self.added.pop();
        }
    }
}
