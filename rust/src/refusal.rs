//! Refusals: a number and a place.

use std::fmt;

/// Why a call refused. If several rules are broken, the one with the smallest number is named.
///
/// A refused call has changed nothing: no output byte, no position.
///
/// ```
/// use quelomavunt::{samples, Table};
/// let cut_short = Table::from_file(&samples::TABLE_S[..20]).unwrap_err();
/// assert_eq!((cut_short.number, cut_short.place), (1, 20));
/// assert_eq!(cut_short.to_string(), "refused 1 at 20: unsound table or facts");
/// ```
#[derive(Clone, Copy, PartialEq, Eq, Hash, Debug)]
pub struct Refusal {
    /// 1 to 9; [`Refusal::meaning`] says what it means.
    pub number: u8,
    /// For 1: the first node at fault, or the offset in a file. Else 0.
    pub place: u64,
}

impl Refusal {
    /// What the number means.
    ///
    /// ```
    /// use quelomavunt::Refusal;
    /// assert_eq!(Refusal { number: 8, place: 0 }.meaning(), "the stream ends early");
    /// ```
    pub fn meaning(&self) -> &'static str {
        match self.number {
            1 => "unsound table or facts",
            2 => "a named node isn't in the table",
            3 => "a named record type is wider than 524,288 bits",
            4 => "a named record type has a size above 2,097,152",
            5 => "offset plus width or a stream's length runs past the bytes, or the position lies past that length",
            6 => "a word's number, an n, an array or data length is out of range",
            7 => "wrong shape",
            8 => "the stream ends early",
            9 => "an output is shorter than the whole result needs",
            _ => "no number of a refusal",
        }
    }

    /// A call's result: 0, or number + 256 * place.
    pub(crate) fn of(result: u64) -> Result<(), Refusal> {
        match result {
            0 => Ok(()),
            code => Err(Refusal { number: (code % 256) as u8, place: code / 256 }),
        }
    }
}

impl fmt::Display for Refusal {
    fn fmt(&self, f: &mut fmt::Formatter) -> fmt::Result {
        write!(f, "refused {} at {}: {}", self.number, self.place, self.meaning())
    }
}

impl std::error::Error for Refusal {}
