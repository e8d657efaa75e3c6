//! Bits in bytes, filled from the high end: taking them, putting them, and
//! asking whether lent bytes hold so many.

/// Whether the bytes lent hold the first `count` bits. Counted in 128 bits,
/// since eight times a length can pass 64.
pub fn hold(bytes: &[u8], count: u64) -> bool {
    u128::from(count) <= 8 * bytes.len() as u128
}

/// The bytes that `count` bits take up. The count fits lent memory.
pub fn bytes_for(count: u64) -> usize {
    (count / 8) as usize + usize::from(count % 8 != 0)
}

/// Where a bit lies: its byte, and the byte with only that bit set.
fn locate(place: u64) -> (usize, u8) {
    ((place / 8) as usize, 0x80 >> (place % 8))
}

pub fn bit_at(bytes: &[u8], place: u64) -> bool {
    let (byte, mask) = locate(place);
    bytes[byte] & mask != 0
}

/// Lent bytes with a bit count and a place.
pub struct BitSource<'a> {
    bytes: &'a [u8],
    count: u64,
    place: u64,
}

impl<'a> BitSource<'a> {
    pub fn new(bytes: &'a [u8], count: u64) -> BitSource<'a> {
        BitSource {
            bytes,
            count,
            place: 0,
        }
    }

    /// The next bit, or none once all are taken.
    pub fn take(&mut self) -> Option<bool> {
        if self.place == self.count {
            return None;
        }
        let bit = bit_at(self.bytes, self.place);
        self.place += 1;
        Some(bit)
    }

    pub fn taken(&self) -> u64 {
        self.place
    }
}

/// Lent bytes that take bits up to a limit.
pub struct BitSink<'a> {
    bytes: &'a mut [u8],
    limit: u64,
    place: u64,
}

impl<'a> BitSink<'a> {
    pub fn new(bytes: &'a mut [u8], limit: u64) -> BitSink<'a> {
        let lent = (bytes.len() as u64).saturating_mul(8);
        BitSink {
            bytes,
            limit: limit.min(lent),
            place: 0,
        }
    }

    /// Puts the next bit, or gives none if the limit leaves no place for it.
    pub fn put(&mut self, bit: bool) -> Option<()> {
        if self.place == self.limit {
            return None;
        }
        let (byte, mask) = locate(self.place);
        if mask == 0x80 {
            // A byte's first bit clears the rest, so spare bits end as 0.
            self.bytes[byte] = 0;
        }
        if bit {
            self.bytes[byte] |= mask;
        }
        self.place += 1;
        Some(())
    }

    pub fn written(&self) -> u64 {
        self.place
    }
}

#[cfg(test)]
mod tests {
    use super::*;

    #[test]
    fn bits_fill_bytes_from_the_high_end() {
        let mut bytes = [0xFF; 3];
        let mut sink = BitSink::new(&mut bytes, 9);
        for i in 0..9 {
            assert_eq!(sink.put(i == 1 || i == 8), Some(()));
        }
        assert_eq!(sink.put(true), None);
        assert_eq!(sink.written(), 9);
        assert_eq!(bytes, [0x40, 0x80, 0xFF]);

        let mut source = BitSource::new(&bytes, 3);
        let taken: Vec<Option<bool>> = (0..4).map(|_| source.take()).collect();
        assert_eq!(taken, [Some(false), Some(true), Some(false), None]);
        assert_eq!(source.taken(), 3);
    }

    #[test]
    fn counts_are_compared_without_overflow() {
        assert!(hold(&[], 0));
        assert!(!hold(&[], 1));
        assert!(hold(&[0; 2], 16));
        assert!(!hold(&[0; 2], 17));
        assert!(!hold(&[0; 2], u64::MAX));
        assert!(!hold(&[0; 8], 1 << 61));
    }
}
