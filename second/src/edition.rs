//! The two editions of a block. Where the payload starts is all that they differ
//! in: edition 2 has the arm and the mount number before it.

use crate::refusal::Refusal;
use std::ops::Range;

/// The largest number that three bytes hold.
pub const MOST_MOUNT: u32 = 16_777_215;

#[derive(Clone, Copy, Debug, PartialEq, Eq)]
pub enum Edition {
    One = 1,
    Two = 2,
}

impl Edition {
    pub const BOTH: [Edition; 2] = [Edition::One, Edition::Two];

    pub fn new(number: u32) -> Result<Edition, Refusal> {
        let mut both = Edition::BOTH.into_iter();
        both.find(|edition| edition.number() == number)
            .ok_or(Refusal::Field)
    }

    pub fn number(self) -> u32 {
        self as u32
    }

    pub fn other(self) -> Edition {
        match self {
            Edition::One => Edition::Two,
            Edition::Two => Edition::One,
        }
    }

    /// The bytes of the arm and the mount number: none in edition 1.
    pub fn names(self) -> Range<usize> {
        match self {
            Edition::One => 16..16,
            Edition::Two => 16..20,
        }
    }

    pub fn payload(self) -> Range<usize> {
        self.names().end..508
    }

    pub fn payload_length(self) -> usize {
        self.payload().len()
    }

    pub fn payload_bits(self) -> u16 {
        8 * self.payload_length() as u16
    }
}

/// Edition, arm and mount number, as a caller asks for them or a block says
/// them: there the last two are 0 in edition 1.
#[derive(Clone, Copy, Debug, Default, PartialEq, Eq)]
pub struct Origin {
    pub edition: u32,
    pub arm: u32,
    pub mount: u32,
}

impl Origin {
    /// Edition 1, which names no arm.
    pub const UNNAMED: Origin = Origin {
        edition: 1,
        arm: 0,
        mount: 0,
    };

    /// What a block says.
    pub fn of(block: &[u8]) -> Origin {
        let edition = block[0].into();
        match Edition::new(edition) {
            Ok(Edition::Two) => Origin {
                edition,
                arm: block[16].into(),
                mount: u32::from_be_bytes([0, block[17], block[18], block[19]]),
            },
            _ => Origin {
                edition,
                ..Origin::UNNAMED
            },
        }
    }

    /// The bytes of edition 2, for an arm and a mount number in their ranges.
    pub fn names(self) -> [u8; 4] {
        (self.arm << 24 | self.mount).to_be_bytes()
    }

    /// Judges the arm and the mount number, which edition 1 ignores.
    pub fn check_names(self) -> Result<(), Refusal> {
        let right = (1..=2).contains(&self.arm) && self.mount <= MOST_MOUNT;
        Refusal::Field.when(self.edition == 2 && !right)
    }
}

#[cfg(test)]
mod tests {
    use super::*;

    #[test]
    fn the_payloads_are_those_of_the_paper_and_of_the_request() {
        let [one, two] = Edition::BOTH;
        assert_eq!((one.payload(), one.payload_bits()), (16..508, 3_936));
        assert_eq!((two.payload(), two.payload_bits()), (20..508, 3_904));
    }

    #[test]
    fn the_mount_number_stands_high_byte_first() {
        let origin = Origin {
            edition: 2,
            arm: 1,
            mount: 70_123,
        };
        let mut block = [0; 20];
        block[0] = 2;
        block[Edition::Two.names()].copy_from_slice(&[1, 0x01, 0x11, 0xEB]);
        assert_eq!(Origin::of(&block), origin);
        assert_eq!(block[Edition::Two.names()], origin.names());
        block[0] = 1;
        assert_eq!(Origin::of(&block), Origin::UNNAMED);
    }
}
