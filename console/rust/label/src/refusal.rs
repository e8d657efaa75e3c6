//! The refusals by name.

use core::error::Error;
use core::fmt;

/// Why a call was refused: the lowest of these that applies; but 13, which [`thumbnail`](crate::thumbnail) alone has, is
/// judged after 2 and before 3. (An edition that is none, which is 9 and judged just before 6, can be given to
/// [`raw::write`](crate::raw::write) alone.)
///
/// A refused call has changed no byte and no number that it was lent. The numbers are those of the record's paper, and
/// of `label.h`:
///
/// ```
/// use label::Refusal;
///
/// let refused = label::read(b"too short", b"00000417", &mut []).unwrap_err();
/// assert_eq!(refused, Refusal::Room);
/// assert_eq!(refused.number(), 6);
/// ```
#[derive(Clone, Copy, Debug, PartialEq, Eq, PartialOrd, Ord, Hash)]
#[non_exhaustive]
#[repr(u32)]
pub enum Refusal {
    /// 1: k is not in 3 to 8.
    Side = 1,
    /// 2: the levels are not in 1 to [`most_levels`](crate::most_levels).
    Levels = 2,
    /// 3: a slice of greys or numbers is not [`places`](crate::places) long; or a thumbnail, or its room, is not
    /// [`thumbnail_places`](crate::thumbnail_places) long.
    Length = 3,
    /// 4: a number is beyond ±[`NUMBER_LIMIT`](crate::NUMBER_LIMIT); for a thumbnail, one of those that it is made of; for a
    /// softer picture, one as it was lent, and not as it is shown.
    Number = 4,
    /// 5: n is above [`MOST_PLANES`](crate::MOST_PLANES); or the unfinished planes of a softer picture are.
    Planes = 5,
    /// 6: more bits than the bytes lent have, or than n planes can have; under 512 bytes to read, or to write for each
    /// block; under 492 bytes of room for each whole block to read; a block to check that is not 512 bytes.
    Room = 6,
    /// 7: the label given is not eight characters, each 0 to 9 or A to Z.
    Label = 7,
    /// 8: a block's check A or B is wrong.
    Damaged = 8,
    /// 9: a block's edition, k, L, n, label, arm, payload count or an unused bit is wrong; or an arm to write is neither 1
    /// nor 2, or a mount number above [`MOST_MOUNT`](crate::MOST_MOUNT).
    Fields = 9,
    /// 10: a block's number is out of turn, its bytes 0 to 11, in edition 2 also 16 to 19, are unlike block 0's, or its
    /// label unlike the one expected.
    Turn = 10,
    /// 11: the place of a softer picture is not below [`places`](crate::places); no decoding gives one.
    State = 11,
    /// 13: the halvings of a thumbnail are not in 1 to L.
    Halvings = 13,
}

impl Refusal {
    /// All refusals, by their numbers.
    pub const ALL: [Refusal; 12] = [
        Refusal::Side,
        Refusal::Levels,
        Refusal::Length,
        Refusal::Number,
        Refusal::Planes,
        Refusal::Room,
        Refusal::Label,
        Refusal::Damaged,
        Refusal::Fields,
        Refusal::Turn,
        Refusal::State,
        Refusal::Halvings,
    ];

    /// The refusal's number, 1 to 11 or 13.
    #[must_use]
    pub const fn number(self) -> u32 {
        self as u32
    }

    /// The refusal that has this number; none for 0, 12 and above 13.
    ///
    /// ```
    /// use label::Refusal;
    ///
    /// assert_eq!(Refusal::from_number(8), Some(Refusal::Damaged));
    /// assert_eq!(Refusal::from_number(0), None);
    /// ```
    #[must_use]
    pub const fn from_number(number: u32) -> Option<Refusal> {
        let mut at = 0;
        while at < Self::ALL.len() {
            if Self::ALL[at].number() == number {
                return Some(Self::ALL[at]);
            }
            at += 1;
        }
        None
    }
}

impl fmt::Display for Refusal {
    fn fmt(&self, to: &mut fmt::Formatter<'_>) -> fmt::Result {
        to.write_str(match self {
            Refusal::Side => "k is not in 3 to 8",
            Refusal::Levels => "the levels are not in 1 to the smaller of 5 and k - 1",
            Refusal::Length => "a slice of greys or numbers is not as long as its side asks",
            Refusal::Number => "a number is beyond 262143 on either side of 0",
            Refusal::Planes => "there are more than 18 planes",
            Refusal::Room => "too few bytes, too little room, or too many bits",
            Refusal::Label => "a label is eight characters, 0-9 or A-Z; leading zeros count",
            Refusal::Damaged => "a block is damaged, a check is wrong",
            Refusal::Fields => "a field of a block is wrong, or the arm or the mount number to write",
            Refusal::Turn => "a block is out of its turn in the record asked for",
            Refusal::State => "the place is S x S or more; no decoding gives one",
            Refusal::Halvings => "the halvings of a thumbnail are not in 1 to the levels",
        })
    }
}

impl Error for Refusal {}

/// A plain answer as a result: the refusal by name where its number is not 0.
///
/// # Panics
/// If no refusal has the number. The archive has no such answer: it would be one of another version than the package.
pub(crate) const fn judged<T: Copy>(number: u32, answer: T) -> Result<T, Refusal> {
    if number == 0 {
        return Ok(answer);
    }
    match Refusal::from_number(number) {
        Some(refusal) => Err(refusal),
        None => panic!("label: a refusal without a name; the archive is not of this package's version"),
    }
}
