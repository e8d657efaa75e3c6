//! The sizes section of the paper: side, levels, planes, and what follows from
//! them.

use crate::places::ZPlace;
use crate::refusal::Refusal;

pub const SMALLEST_K: u32 = 3;
pub const LARGEST_K: u32 = 8;
pub const MOST_LEVELS: u32 = 5;
pub const MOST_PLANES: u32 = 18;
pub const LARGEST_MAGNITUDE: i32 = 262_143;

/// A side exponent k and a level count L, both within their ranges.
#[derive(Clone, Copy, Debug, PartialEq, Eq)]
pub struct Sizes {
    k: u32,
    levels: u32,
}

impl Sizes {
    pub fn new(k: u32, levels: u32) -> Result<Sizes, Refusal> {
        Refusal::Side.when(!(SMALLEST_K..=LARGEST_K).contains(&k))?;
        Refusal::Levels.when(!(1..=most_levels(k)).contains(&levels))?;
        Ok(Sizes { k, levels })
    }

    pub fn k(self) -> u32 {
        self.k
    }

    pub fn levels(self) -> u32 {
        self.levels
    }

    /// S.
    pub fn side(self) -> usize {
        1 << self.k
    }

    /// S², the count of greys and of wavelet numbers.
    pub fn places(self) -> usize {
        self.side() * self.side()
    }

    /// (S / 2^r)², the numbers of the low band of r levels, for an r in its
    /// range.
    pub fn halved_places(self, halvings: u32) -> usize {
        let side = self.side() >> halvings;
        side * side
    }

    /// (S / 2^L)², the length of the set that every plane begins with.
    pub fn first_set(self) -> usize {
        self.halved_places(self.levels)
    }

    /// n(4S² - 1)/3 + S², the most bits that a coding of n planes can have.
    pub fn most_bits(self, planes: u32) -> u64 {
        let places = self.places() as u64;
        // 4S² - 1 is a multiple of 3, so the division is exact.
        u64::from(planes) * ((4 * places - 1) / 3) + places
    }

    pub fn check_length(self, length: usize) -> Result<(), Refusal> {
        Refusal::Length.when(length != self.places())
    }

    /// The Z place of this number, if there is one.
    pub fn check_place(self, place: u64) -> Result<ZPlace, Refusal> {
        Refusal::State.when(place >= self.places() as u64)?;
        Ok(ZPlace(place as usize))
    }

    pub fn check_halvings(self, halvings: u32) -> Result<(), Refusal> {
        Refusal::Halvings.when(!(1..=self.levels).contains(&halvings))
    }
}

/// The smaller of 5 and k - 1, for a k that is in its range.
pub fn most_levels(k: u32) -> u32 {
    MOST_LEVELS.min(k - 1)
}

pub fn check_planes(planes: u32) -> Result<(), Refusal> {
    Refusal::Planes.when(planes > MOST_PLANES)
}

/// Compares with both limits, since the least 32-bit number has no magnitude
/// that 32 signed bits could hold.
pub fn check_magnitudes(numbers: &[i32]) -> Result<(), Refusal> {
    let limits = -LARGEST_MAGNITUDE..=LARGEST_MAGNITUDE;
    Refusal::Magnitude.when(numbers.iter().any(|number| !limits.contains(number)))
}

/// n: the bits needed for the largest magnitude, 0 if all are zero.
pub fn plane_count(numbers: &[i32]) -> u32 {
    let magnitudes = numbers.iter().map(|number| number.unsigned_abs());
    u32::BITS - magnitudes.max().unwrap_or(0).leading_zeros()
}

#[cfg(test)]
mod tests {
    use super::*;

    #[test]
    fn the_bound_is_the_papers_formula() {
        let sizes = Sizes::new(3, 2).unwrap();
        assert_eq!(sizes.most_bits(0), 64);
        assert_eq!(sizes.most_bits(18), 18 * 255 / 3 + 64);
        assert_eq!(Sizes::new(8, 5).unwrap().most_bits(18), 1_638_394);
    }

    #[test]
    fn plane_count_is_the_bits_of_the_largest_magnitude() {
        assert_eq!(plane_count(&[]), 0);
        assert_eq!(plane_count(&[0, 0]), 0);
        assert_eq!(plane_count(&[0, -1]), 1);
        assert_eq!(plane_count(&[3, -4]), 3);
        assert_eq!(plane_count(&[-LARGEST_MAGNITUDE]), 18);
    }
}
