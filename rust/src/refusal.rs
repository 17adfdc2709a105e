//! The refusals and their numbers.

use core::error::Error;
use core::fmt;

/// The rule that is broken. `n` and `m` are the numbers of terminals and wires in the record's header.
///
/// # Examples
///
/// ```
/// use celduga::{Record, Refusal};
///
/// let refusal = Record::new(&[0x00, 0x08]).unwrap_err();
/// assert_eq!(refusal, Refusal::TooShort);
/// assert_eq!(refusal.number(), 1);
/// assert_eq!(refusal.to_string(), "the record has under 4 bytes");
/// ```
#[derive(Clone, Copy, Debug, PartialEq, Eq, Hash)]
#[non_exhaustive]
pub enum Refusal {
    /// 1: the record has under 4 bytes.
    TooShort = 1,
    /// 2: n is over 4,096 or m over 16,384.
    OverLimit = 2,
    /// 3: the record's length is not the one that n and m give.
    WrongLength = 3,
    /// 4: D, the string of the degrees in unary, has not n ones, or begins with a zero.
    BadUnary = 4,
    /// 5: a bit after the last field is set.
    SpareSet = 5,
    /// 6: a neighbour is no terminal, or the terminal itself.
    StrayNeighbour = 6,
    /// 7: a neighbour stands twice in a block. No call gives it any longer: a neighbour may stand several times in a
    /// block.
    DoubledNeighbour = 7,
    /// 8: two terminals mention each other a different number of times.
    OneSidedWire = 8,
    /// 9: the work slice has fewer than 8·n numbers.
    ShortWork = 9,
    /// 10: the length of the index or of a list is not the one that n and m give.
    WrongBuffer = 10,
    /// 11: the terminal, or the visit number, is 0 or above n.
    NoTerminal = 11,
    /// 12: the index shows two parents, a field or a stored number of n or more, a climb that is not over after n − 1
    /// steps, or a visit number nowhere. The index that [`build`](crate::build) wrote for the record shows none of
    /// these.
    BadIndex = 12,
    /// 13: the number of the child is 0 or above the count of children.
    NoChild = 13,
    /// 14: the start of the search is 0 or above n, unless both are 0.
    NoStart = 14,
    /// 15: the list has more than [`MAX_LOOKUP_LEN`](crate::MAX_LOOKUP_LEN) terminals, or an answer list has another
    /// length.
    BadList = 15,
    /// 16: there are more than 4,096 degrees, or their sum is odd, above 32,768 or not the number of neighbours.
    BadLists = 16,
    /// 17: the buffer for the record has another length than the record.
    WrongRecordBuffer = 17,
}

impl Refusal {
    const ALL: [Refusal; 17] = [
        Refusal::TooShort,
        Refusal::OverLimit,
        Refusal::WrongLength,
        Refusal::BadUnary,
        Refusal::SpareSet,
        Refusal::StrayNeighbour,
        Refusal::DoubledNeighbour,
        Refusal::OneSidedWire,
        Refusal::ShortWork,
        Refusal::WrongBuffer,
        Refusal::NoTerminal,
        Refusal::BadIndex,
        Refusal::NoChild,
        Refusal::NoStart,
        Refusal::BadList,
        Refusal::BadLists,
        Refusal::WrongRecordBuffer,
    ];

    /// The refusal's number, from 1.
    #[must_use]
    pub const fn number(self) -> u16 {
        self as u16
    }

    /// The refusal with this number, where there is one.
    #[must_use]
    pub fn from_number(number: u16) -> Option<Refusal> {
        Refusal::ALL.into_iter().find(|refusal| refusal.number() == number)
    }
}

impl fmt::Display for Refusal {
    fn fmt(&self, f: &mut fmt::Formatter<'_>) -> fmt::Result {
        let words = match self {
            Refusal::TooShort => "the record has under 4 bytes",
            Refusal::OverLimit => "the record has too many terminals or wires",
            Refusal::WrongLength => "the record has another length than its header gives",
            Refusal::BadUnary => "the degrees in unary do not fit the number of terminals",
            Refusal::SpareSet => "a spare bit of the record is set",
            Refusal::StrayNeighbour => "a neighbour is no terminal, or the terminal itself",
            Refusal::DoubledNeighbour => "a neighbour stands twice in a block",
            Refusal::OneSidedWire => "two terminals mention each other a different number of times",
            Refusal::ShortWork => "the work slice is too short",
            Refusal::WrongBuffer => "the index or the list has another length than the record gives",
            Refusal::NoTerminal => "there is no such terminal or visit number",
            Refusal::BadIndex => "the index shows what no forest does",
            Refusal::NoChild => "there is no such child",
            Refusal::NoStart => "there is no such terminal to start from",
            Refusal::BadList => "the list is too long, or an answer list has another length",
            Refusal::BadLists => {
                "the degrees are too many, or their sum is odd, too large or not the number of neighbours"
            }
            Refusal::WrongRecordBuffer => "the buffer has another length than the record",
        };
        f.pad(words)
    }
}

impl Error for Refusal {}
