//! The sheet: terms, names, a pattern and runs as one text, and the text that answers it.

use crate::records::{MAX_RECORDS, MAX_RUNS, PATTERN_WIDTH, RUN_WIDTH, TERM_WIDTH};
use crate::{ffi, Refusal};

/// The most terms of a sheet.
pub const SHEET_TERMS: usize = 512;
/// The most bytes of names of a sheet.
pub const SHEET_NAMES: usize = 4096;
/// The bytes of the longest sheet.
const SHEET: usize = 43_370;
/// The bytes of the longest answer.
const ANSWER: usize = 42_025;

/// What a sheet holds. Reading and writing check its form and its limits; whether the records keep their rules is found by [`run_sheet`].
#[derive(Clone, Debug, Default, PartialEq, Eq)]
pub struct Sheet {
    /// The words of the terms, five to a record; at most 512 records.
    pub terms: Vec<u32>,
    /// The names; at most 4,096 bytes.
    pub names: Vec<u8>,
    /// The words of the pattern, four to a record; at most 256 records.
    pub pattern: Vec<u32>,
    /// The words of the runs, start and length; at most 64 runs.
    pub runs: Vec<u32>,
}

impl Sheet {
    /// Reads a sheet from its text. [`Refusal::BadSheet`] if the text is none.
    pub fn read(text: &[u8]) -> Result<Sheet, Refusal> {
        let mut terms = vec![0; SHEET_TERMS * TERM_WIDTH];
        let mut pattern = vec![0; MAX_RECORDS * PATTERN_WIDTH];
        let mut runs = vec![0; MAX_RUNS * RUN_WIDTH];
        let counts = ffi::read_sheet(text, &mut terms, &mut pattern, &mut runs)?;
        terms.truncate(counts.terms * TERM_WIDTH);
        pattern.truncate(counts.pattern * PATTERN_WIDTH);
        runs.truncate(counts.runs * RUN_WIDTH);
        let names = text[counts.name_start..][..counts.names].to_vec();
        Ok(Sheet { terms, names, pattern, runs })
    }

    /// Its text. [`Refusal::Uneven`] if records are not whole or a limit is passed.
    pub fn to_text(&self) -> Result<Vec<u8>, Refusal> {
        let mut out = vec![0; SHEET];
        let written = ffi::write_sheet(&self.terms, &self.names, &self.pattern, &self.runs, &mut out)?;
        out.truncate(written);
        Ok(out)
    }
}

/// What the program `sheet` prints for a text: the candidates of the pattern over the field of the runs, or the line of a refusal.
///
/// ```
/// assert_eq!(naldrev::run_sheet(b"no sheet"), b"        16         0         0         0\n");
/// ```
pub fn run_sheet(text: &[u8]) -> Vec<u8> {
    let mut out = vec![0; ANSWER];
    // No answer is longer, so it is never refused.
    let written = ffi::run_sheet(text, &mut out).expect("the longest answer fits");
    out.truncate(written);
    out
}

#[cfg(test)]
mod tests {
    use super::*;

    /// The sheet examples/dashes.sheet: e.1 '-' e.2 on --
    const TEXT: &str = "         2         2         3         1
         0        45         0         0         0
         0        45         0         0         0
12
         7         0         1         0
         0        45         0         0
         7         1         1         0
         0         2         0         0
";

    fn example() -> Sheet {
        Sheet {
            terms: vec![0, 45, 0, 0, 0, 0, 45, 0, 0, 0],
            names: b"12".to_vec(),
            pattern: vec![7, 0, 1, 0, 0, 45, 0, 0, 7, 1, 1, 0],
            runs: vec![0, 2],
        }
    }

    /// Sheets up to the limits, with words of every size.
    fn sheets() -> Vec<Sheet> {
        let words = |n: usize| (0..n).map(|i| u32::MAX.checked_shr(i as u32 % 33).unwrap_or(0)).collect::<Vec<u32>>();
        let sheet = |t: usize, n, p: usize, r: usize| Sheet {
            terms: words(t * TERM_WIDTH),
            names: vec![b'\n'; n],
            pattern: words(p * PATTERN_WIDTH),
            runs: words(r * RUN_WIDTH),
        };
        vec![Sheet::default(), sheet(1, 0, 0, 0), sheet(0, 1, 0, 0), sheet(0, 0, 1, 1), sheet(7, 9, 3, 5), sheet(512, 4096, 256, 64)]
    }

    #[test]
    fn the_example_both_ways() {
        assert_eq!(Sheet::read(TEXT.as_bytes()), Ok(example()));
        assert_eq!(example().to_text(), Ok(TEXT.as_bytes().to_vec()));
    }

    #[test]
    fn the_example_is_answered() {
        let answer = "         0         2         2         0
         1         1         0         0
         1         2         1         1
         2         1         0         1
         2         2         2         0
";
        assert_eq!(String::from_utf8(run_sheet(TEXT.as_bytes())).unwrap(), answer);
    }

    #[test]
    fn written_sheets_are_read_back() {
        for sheet in sheets() {
            let text = sheet.to_text().unwrap();
            assert_eq!(Sheet::read(&text), Ok(sheet));
        }
        let longest = sheets().pop().unwrap();
        assert_eq!(longest.to_text().unwrap().len(), SHEET);
    }

    #[test]
    fn damaged_texts_are_no_sheets() {
        let text = TEXT.as_bytes();
        for end in 0..text.len() {
            assert_eq!(Sheet::read(&text[..end]), Err(Refusal::BadSheet), "{end}");
        }
        assert_eq!(Sheet::read(&[text, b"\n"].concat()), Err(Refusal::BadSheet));
        for at in 0..text.len() {
            let mut damaged = text.to_vec();
            damaged[at] = b'x';
            // The names, after a line of 41 bytes and two of 51, may be any bytes.
            if (143..145).contains(&at) {
                assert!(Sheet::read(&damaged).is_ok(), "{at}");
            } else {
                assert_eq!(Sheet::read(&damaged), Err(Refusal::BadSheet), "{at}");
                assert_eq!(run_sheet(&damaged), run_sheet(b""), "{at}");
            }
        }
    }

    #[test]
    fn what_is_no_sheet_is_not_written() {
        let uneven = [
            Sheet { terms: vec![0; 4], ..Sheet::default() },
            Sheet { terms: vec![0; 513 * TERM_WIDTH], ..Sheet::default() },
            Sheet { names: vec![0; 4097], ..Sheet::default() },
            Sheet { pattern: vec![0; 5], ..Sheet::default() },
            Sheet { pattern: vec![0; 257 * PATTERN_WIDTH], ..Sheet::default() },
            Sheet { runs: vec![0; 1], ..Sheet::default() },
            Sheet { runs: vec![0; 65 * RUN_WIDTH], ..Sheet::default() },
        ];
        for sheet in uneven {
            assert_eq!(sheet.to_text(), Err(Refusal::Uneven));
        }
    }

    #[test]
    fn the_fifth_word_of_a_term_is_an_unknowns_alone() {
        // Where the term keeps its rule, it is not the dash that the pattern asks for.
        let refused = |term: [u32; TERM_WIDTH], refusal: Refusal| {
            let sheet = Sheet { terms: term.to_vec(), names: b"a1".to_vec(), runs: vec![0, 1], ..example() };
            let answer = format!("{:>10}         0         0         0\n", refusal.number());
            assert_eq!(String::from_utf8(run_sheet(&sheet.to_text().unwrap())).unwrap(), answer, "{term:?}");
        };
        for [kind, a, b, c] in [[0, 97, 0, 0], [1, 0, 1, 0], [2, 1, 1, 0], [3, 0, 0, 1]] {
            refused([kind, a, b, c, 0], Refusal::NoMatch);
            refused([kind, a, b, c, 1], Refusal::BadTerm);
            refused([kind, a, b, c, u32::MAX], Refusal::BadTerm);
        }
        refused([4, 0, u32::MAX, u32::MAX, u32::MAX], Refusal::NoMatch);
    }

    #[test]
    fn a_line_of_four_columns_is_no_term_line() {
        let four = TEXT.replacen("        45         0         0         0\n", "        45         0         0\n", 1);
        assert_eq!(Sheet::read(four.as_bytes()), Err(Refusal::BadSheet));
    }

    #[test]
    fn the_longest_answer() {
        // 64 variables on 80 terms: over 16 candidates, 64 entries each.
        let names: Vec<u8> = (0..64).flat_map(|i| format!("{i:02}").into_bytes()).collect();
        let sheet = Sheet {
            terms: [0, 97, 0, 0, 0].repeat(80),
            names,
            pattern: (0..64).flat_map(|i| [7, 2 * i, 2, 0]).collect(),
            runs: vec![0, 80],
        };
        let answer = run_sheet(&sheet.to_text().unwrap());
        assert_eq!(answer.len(), ANSWER);
        assert!(answer.starts_with(b"        15        16        64         0\n"));
    }
}
