//! The numbers with which the library refuses a call.

use std::fmt;

/// Why the library refused a call. A refused call changes nothing. More numbers come with more calls.
#[derive(Clone, Copy, Debug, PartialEq, Eq, Hash)]
#[non_exhaustive]
pub enum Refusal {
    /// 1: a slice isn't whole records, a count passes its slice or limit, or a list has over 64 runs.
    Uneven,
    /// 2: a term breaks its rule.
    BadTerm,
    /// 3: a node breaks its rule, or node 0 is missing.
    BadNode,
    /// 4: a field of no such node, or longer than its node reaches.
    BadField,
    /// 5: a count or range reaches past its field, or a run past the used terms.
    PastEnd,
    /// 6: a field would pass 65,536 terms.
    TooLong,
    /// 7: a pattern record breaks its rule.
    BadPattern,
    /// 8: a starting binding breaks its rule, or repeats a name.
    BadBinding,
    /// 9: start and pattern together have over 64 names.
    TooManyNames,
    /// 10: the pattern has no candidate. The methods of [`crate::Store`] answer an empty listing or `None` instead.
    NoMatch,
    /// 11: a try reached a call or a block, which no term matches.
    CallsAreNotPatterns,
    /// 12: no room for the new nodes.
    NodesFull,
    /// 13: no room for new terms.
    TermsFull,
    /// 14: the work buffer is too short for the copy.
    WorkShort,
    /// 16: the text isn't a sheet.
    BadSheet,
}

/// The refusals with their numbers and what they say.
const ALL: [(Refusal, usize, &str); 15] = [
    (Refusal::Uneven, 1, "a slice is not whole records, a count passes its slice or its limit, or a list has over 64 runs"),
    (Refusal::BadTerm, 2, "a term breaks its rule"),
    (Refusal::BadNode, 3, "a node breaks its rule, or node 0 is missing"),
    (Refusal::BadField, 4, "there is no such field: its node is missing, or holds fewer terms"),
    (Refusal::PastEnd, 5, "a count or a range reaches past the end of the field, or a run past the used terms"),
    (Refusal::TooLong, 6, "the field would be longer than 65,536 terms"),
    (Refusal::BadPattern, 7, "a record of the pattern breaks its rule"),
    (Refusal::BadBinding, 8, "a starting binding breaks its rule, or two of them have one name"),
    (Refusal::TooManyNames, 9, "the pattern and the starting bindings have over 64 names together"),
    (Refusal::NoMatch, 10, "the pattern does not fit"),
    (Refusal::CallsAreNotPatterns, 11, "the pattern has a call or a block, which fits nothing, and a try reached it"),
    (Refusal::NodesFull, 12, "the store has no room for the new nodes"),
    (Refusal::TermsFull, 13, "the store has no room for the new terms"),
    (Refusal::WorkShort, 14, "the work buffer is too short for the terms"),
    (Refusal::BadSheet, 16, "the text is no sheet"),
];

impl Refusal {
    /// The refusal with this number, if there is one. 0 and 15 refuse nothing.
    pub fn from_number(number: usize) -> Option<Refusal> {
        ALL.iter().find(|(_, n, _)| *n == number).map(|(refusal, _, _)| *refusal)
    }

    /// Its number.
    pub fn number(self) -> usize {
        self.row().1
    }

    /// What it says, without the number.
    pub fn meaning(self) -> &'static str {
        self.row().2
    }

    fn row(self) -> (Refusal, usize, &'static str) {
        *ALL.iter().find(|(refusal, _, _)| *refusal == self).expect("every refusal has its row")
    }

    /// The refusal that the library answered with. Its contracts leave no other number.
    pub(crate) fn of(number: usize) -> Refusal {
        Refusal::from_number(number).unwrap_or_else(|| panic!("the library answered {number}, which is no refusal"))
    }
}

/// A sentence, then the number in brackets.
impl fmt::Display for Refusal {
    fn fmt(&self, f: &mut fmt::Formatter<'_>) -> fmt::Result {
        write!(f, "{} (refusal {})", self.meaning(), self.number())
    }
}

impl std::error::Error for Refusal {}

#[cfg(test)]
mod tests {
    use super::*;

    #[test]
    fn numbers_go_both_ways() {
        let numbers: Vec<usize> = (0..=100).filter(|n| Refusal::from_number(*n).is_some()).collect();
        assert_eq!(numbers, [1, 2, 3, 4, 5, 6, 7, 8, 9, 10, 11, 12, 13, 14, 16]);
        assert!(numbers.iter().all(|n| Refusal::of(*n).number() == *n));
    }

    #[test]
    fn shown_as_a_sentence_with_its_number() {
        assert_eq!(Refusal::NoMatch.to_string(), "the pattern does not fit (refusal 10)");
    }

    #[test]
    #[should_panic(expected = "no refusal")]
    fn no_refusal_is_made_up() {
        Refusal::of(15);
    }
}
