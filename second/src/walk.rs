//! The listless set-partitioning walk. Coder and decoder make this one walk
//! over the numbers settled so far; they differ only in who knows the bits.

use crate::bits::{BitSink, BitSource};
use crate::places::ZPlace;
use crate::sizes::Sizes;
use std::ops::Range;

/// What one bit of the walk says, in plane p with T = 2^p.
enum Question {
    /// Is some magnitude of these places T or more?
    Set(Range<usize>),
    /// Bit p of the magnitude at this place.
    Magnitude(ZPlace),
    /// Is the number at this place negative?
    Sign(ZPlace),
}

/// Answers the walk's questions, each with one bit, until there are no more.
trait Partner {
    fn answer(&mut self, question: Question, p: u32) -> Option<bool>;
}

/// Knows the true numbers, and writes down each answer.
struct Coder<'a> {
    numbers: &'a [i32],
    sink: BitSink<'a>,
}

impl Partner for Coder<'_> {
    fn answer(&mut self, question: Question, p: u32) -> Option<bool> {
        let bit = match question {
            Question::Set(places) => {
                let set = &self.numbers[places];
                set.iter().any(|number| number.unsigned_abs() >= 1 << p)
            }
            Question::Magnitude(place) => (self.numbers[place.0].unsigned_abs() >> p) & 1 == 1,
            Question::Sign(place) => self.numbers[place.0] < 0,
        };
        self.sink.put(bit)?;
        Some(bit)
    }
}

/// Knows nothing, and reads each answer.
struct Decoder<'a> {
    source: BitSource<'a>,
}

impl Partner for Decoder<'_> {
    fn answer(&mut self, _question: Question, _p: u32) -> Option<bool> {
        self.source.take()
    }
}

/// The walk of one plane; every step gives none once the bits are out.
struct Plane<'a, P> {
    p: u32,
    settled: &'a mut [i32],
    /// A flag for each place, set when this plane has settled it.
    flags: &'a mut [bool],
    partner: &'a mut P,
}

impl<P: Partner> Plane<'_, P> {
    fn walk(&mut self, first_set: usize) -> Option<()> {
        let mut q = first_set;
        self.set(0, q)?;
        while q < self.settled.len() {
            if !self.test(q..self.settled.len())? {
                break;
            }
            for start in [q, 2 * q, 3 * q] {
                self.set(start, q)?;
            }
            q *= 4;
        }
        Some(())
    }

    fn set(&mut self, start: usize, length: usize) -> Option<()> {
        if !self.test(start..start + length)? {
            return Some(());
        }
        let quarter = length / 4;
        for part in (start..start + length).step_by(quarter) {
            if quarter == 1 {
                self.number(ZPlace(part))?;
            } else {
                self.set(part, quarter)?;
            }
        }
        Some(())
    }

    /// Whether these places are open. Of the true magnitudes, exactly those of
    /// 2T or more have been settled to 2T or more by the planes before.
    fn test(&mut self, places: Range<usize>) -> Option<bool> {
        let set = &self.settled[places.clone()];
        if set.iter().any(|number| self.is_known(*number)) {
            return Some(true);
        }
        let open = self.partner.answer(Question::Set(places.clone()), self.p)?;
        if !open {
            // Closed, a set or a rest settles all its places; open, none.
            self.flags[places].fill(true);
        }
        Some(open)
    }

    fn number(&mut self, place: ZPlace) -> Option<()> {
        let t = 1 << self.p;
        let bit = self.partner.answer(Question::Magnitude(place), self.p)?;
        let number = self.settled[place.0];
        if bit {
            let negative = if self.is_known(number) {
                number < 0
            } else {
                // Without its sign a 1 settles nothing.
                self.partner.answer(Question::Sign(place), self.p)?
            };
            self.settled[place.0] = if negative { number - t } else { number + t };
        }
        self.flags[place.0] = true;
        Some(())
    }

    fn is_known(&self, number: i32) -> bool {
        number.unsigned_abs() >= 2 << self.p
    }
}

/// Where a walk stopped: the unfinished planes and, of the highest of them, which
/// is the running one, a flag for each place. No flags where no plane is running.
struct Stop {
    unfinished: u32,
    flags: Vec<bool>,
}

impl Stop {
    /// The lowest place not yet settled in the running plane. It is 0 where no
    /// plane is running, since there are no flags then, and where none of the
    /// running plane is settled.
    fn place(&self) -> ZPlace {
        let lowest = self.flags.iter().position(|settled| !settled);
        ZPlace(lowest.unwrap_or(0))
    }
}

/// Walks the planes n - 1 down to 0 over numbers that are all zero, and gives
/// where it stopped.
fn walk_planes<P: Partner>(
    sizes: Sizes,
    planes: u32,
    settled: &mut [i32],
    partner: &mut P,
) -> Stop {
    for p in (0..planes).rev() {
        let mut flags = vec![false; sizes.places()];
        let mut plane = Plane {
            p,
            settled,
            flags: &mut flags,
            partner,
        };
        if plane.walk(sizes.first_set()).is_none() {
            let unfinished = p + 1;
            return Stop { unfinished, flags };
        }
    }
    Stop {
        unfinished: 0,
        flags: Vec::new(),
    }
}

/// Writes the first bits of the coding of `numbers`, as many as the limit and
/// the bytes lent allow, and gives their count.
pub fn code(sizes: Sizes, planes: u32, numbers: &[i32], limit: u64, bytes: &mut [u8]) -> u64 {
    let mut coder = Coder {
        numbers,
        sink: BitSink::new(bytes, limit),
    };
    let mut settled = vec![0; numbers.len()];
    walk_planes(sizes, planes, &mut settled, &mut coder);
    coder.sink.written()
}

/// Settles all numbers by the first `count` bits, and gives where the walk
/// stopped and the bits read.
fn settle(sizes: Sizes, planes: u32, numbers: &mut [i32], bytes: &[u8], count: u64) -> (Stop, u64) {
    let mut decoder = Decoder {
        source: BitSource::new(bytes, count),
    };
    numbers.fill(0);
    let stop = walk_planes(sizes, planes, numbers, &mut decoder);
    (stop, decoder.source.taken())
}

/// Settles all numbers by the first `count` bits, and gives the unfinished
/// planes, the bits read, and the lowest place not yet settled in the running
/// plane.
pub fn decode(
    sizes: Sizes,
    planes: u32,
    numbers: &mut [i32],
    bytes: &[u8],
    count: u64,
) -> (u32, u64, ZPlace) {
    let (stop, read) = settle(sizes, planes, numbers, bytes, count);
    (stop.unfinished, read, stop.place())
}

#[cfg(test)]
mod tests {
    use super::*;
    use crate::random::Random;
    use crate::samples::{self, Bits};

    /// Where the walk of the first `count` bits stops.
    fn stop(sizes: Sizes, bits: &Bits, count: u64) -> Stop {
        let mut numbers = vec![-1; sizes.places()];
        settle(sizes, bits.planes, &mut numbers, &bits.bytes, count).0
    }

    /// Of any bits: the flags below the place are set and no other, and at the
    /// place of a running plane there is one that is not.
    #[test]
    fn flags_are_set_below_the_place_and_nowhere_else() {
        let mut random = Random::new(60, 0);
        let mut within = 0;
        for _ in 0..2_000 {
            let sizes = samples::sizes(&mut random, 5);
            let bits = samples::bits(&mut random, sizes);
            let stop = stop(sizes, &bits, random.below(bits.count + 1));
            let ZPlace(place) = stop.place();
            let running = stop.unfinished > 0;
            assert_eq!(stop.flags.len(), if running { sizes.places() } else { 0 });
            let expected = (0..stop.flags.len()).map(|flag| flag < place);
            assert!(stop.flags.iter().copied().eq(expected));
            assert!(place < sizes.places() && (running || place == 0));
            within += u32::from(place > 0);
        }
        assert!(within >= 500, "{}", within);
    }

    /// P3's first plane, bit by bit: the set of places 0 to 3 opens, place 0 has
    /// its 1 and its sign, three numbers are 0, and the rest is closed.
    #[test]
    fn flags_of_p3() {
        let sizes = Sizes::new(3, 2).unwrap();
        let mut numbers = vec![0; 64];
        numbers[0] = 5;
        let bits = samples::coding(sizes, &numbers);
        let flags = |count| stop(sizes, &bits, count).flags;
        let set = |count| flags(count).iter().filter(|flag| **flag).count();
        let counts: Vec<usize> = (0..=7).map(set).collect();
        assert_eq!(counts, [0, 0, 0, 1, 2, 3, 4, 0]);
        // After bit 7 the next plane is running, and after bit 17 none is.
        assert_eq!(flags(7), [false; 64]);
        assert_eq!(flags(17), []);
    }
}
