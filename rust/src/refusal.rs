//! Why a call was refused.

use std::fmt;

/// A row of document 01's table of numbers. It displays as the row's sentence.
///
/// ```
/// use shqemtuli::{Refusal, Shelf};
///
/// let refusal = Shelf::open(b"short").unwrap_err();
/// assert_eq!(refusal, Refusal::ShortSheet);
/// assert_eq!(refusal.number(), 1);
/// assert_eq!(refusal.to_string(), "sheet under 6 bytes");
/// ```
#[derive(Clone, Copy, Debug, PartialEq, Eq, Hash)]
#[repr(u64)]
pub enum Refusal {
    /// 1: sheet under 6 bytes.
    ShortSheet = 1,
    /// 2: edition is not 1.
    OtherEdition = 2,
    /// 3: v, k, b, b·k, T or u outside its limit.
    OutsideLimits = 3,
    /// 4: sheet length not exact.
    OtherLength = 4,
    /// 5: some disk number is v or more.
    DiskOutside = 5,
    /// 6: a disk twice in a tuple.
    DiskTwice = 6,
    /// 7: a filling bit is not zero.
    FillingSet = 7,
    /// 8: disks not equally often.
    DisksUneven = 8,
    /// 9: pairs not equally often.
    PairsUneven = 9,
    /// 10: the shelf value is not one that an accepted opening can give.
    NotAShelf = 10,
    /// 11: image length is not v·T·r·k·U.
    OtherImage = 11,
    /// 12: an address, stripe, place or disk outside, or a run past the last address.
    OutOfRange = 12,
    /// 13: unit or stripe buffer of another length; sheet buffer too short.
    OtherBuffer = 13,
    /// 14: lose, blank or scrub with a disk lost; show place on the lost disk.
    SomeLost = 14,
    /// 15: rebuild with no disk lost.
    NoneLost = 15,
}

impl Refusal {
    /// All of them, in the order of their numbers.
    pub const ALL: [Refusal; 15] = [
        Refusal::ShortSheet,
        Refusal::OtherEdition,
        Refusal::OutsideLimits,
        Refusal::OtherLength,
        Refusal::DiskOutside,
        Refusal::DiskTwice,
        Refusal::FillingSet,
        Refusal::DisksUneven,
        Refusal::PairsUneven,
        Refusal::NotAShelf,
        Refusal::OtherImage,
        Refusal::OutOfRange,
        Refusal::OtherBuffer,
        Refusal::SomeLost,
        Refusal::NoneLost,
    ];

    /// Its number in document 01.
    pub fn number(self) -> u64 {
        self as u64
    }

    /// The sentence of document 01: the number is given exactly when it is true.
    pub fn sentence(self) -> &'static str {
        match self {
            Refusal::ShortSheet => "sheet under 6 bytes",
            Refusal::OtherEdition => "edition is not 1",
            Refusal::OutsideLimits => "v, k, b, b·k, T or u outside its limit",
            Refusal::OtherLength => "sheet length not exact",
            Refusal::DiskOutside => "some disk number is v or more",
            Refusal::DiskTwice => "a disk twice in a tuple",
            Refusal::FillingSet => "a filling bit is not zero",
            Refusal::DisksUneven => "disks not equally often",
            Refusal::PairsUneven => "pairs not equally often",
            Refusal::NotAShelf => {
                "the shelf value is not one that an accepted opening can give \
                 (a lost disk below v apart)"
            }
            Refusal::OtherImage => "image length is not v·T·r·k·U",
            Refusal::OutOfRange => {
                "an address not below N (a run's first apart); a stripe not below S; \
                 a place whose disk is not below v or whose offset is not below T·r·k; \
                 a disk not below v; a run whose first address plus list length is above N"
            }
            Refusal::OtherBuffer => {
                "unit or stripe buffer of another length; sheet buffer too short"
            }
            Refusal::SomeLost => {
                "lose, blank or scrub with a disk lost; show place on the lost disk"
            }
            Refusal::NoneLost => "rebuild with no disk lost",
        }
    }
}

impl fmt::Display for Refusal {
    fn fmt(&self, to: &mut fmt::Formatter<'_>) -> fmt::Result {
        to.write_str(self.sentence())
    }
}

impl std::error::Error for Refusal {}

/// The refusal that a call's number names, if it is not 0.
pub(crate) fn accepted(number: u64) -> Result<(), Refusal> {
    if number == 0 {
        return Ok(());
    }
    let named = Refusal::ALL
        .into_iter()
        .find(|refusal| refusal.number() == number);
    Err(named.expect("the library gives the numbers of document 01"))
}
