//! Random requests for all nine jobs, good and bad, each of them determined
//! by the seed, its number and the options alone.

use crate::bits;
use crate::block::{self, LENGTH};
use crate::damage;
use crate::edition::{Edition, Origin};
use crate::random::Random;
use crate::record::{self, READER_ROOM};
use crate::samples;
use crate::sizes::{self, Sizes, LARGEST_MAGNITUDE, MOST_PLANES};
use crate::transcript::{Request, MOST_BYTES, MOST_NUMBERS};
use crate::walk;

pub struct Options {
    /// The jobs to make requests for, by their numbers 1 to 9.
    pub jobs: Vec<u8>,
    /// The largest k of a good request, 3 to 8.
    pub largest: u32,
}

pub fn case(seed: u64, number: u64, options: &Options) -> Request {
    let random = &mut Random::new(seed, number);
    let largest = options.largest;
    match random.pick(&options.jobs) {
        1 => forward(random, largest),
        2 => coding(random, largest),
        3 => decoding(random, largest),
        4 => inverse(random, largest),
        5 => record_writing(random, largest),
        6 => record_reading(random, largest),
        7 => block_check(random, largest),
        8 => thumbnail(random, largest),
        _ => display(random, largest),
    }
}

/// How many things to spoil in a request that is good so far.
fn spoils(random: &mut Random) -> u32 {
    random.pick(&[0, 0, 0, 0, 0, 0, 0, 0, 0, 1, 1, 1, 1, 2, 2, 3])
}

/// The k and L that are sent, and the sizes that all else is made for.
struct Sent {
    sizes: Sizes,
    k: u32,
    levels: u32,
}

impl Sent {
    fn new(random: &mut Random, largest: u32) -> Sent {
        let sizes = samples::sizes(random, largest);
        Sent {
            sizes,
            k: sizes.k(),
            levels: sizes.levels(),
        }
    }

    /// Some wrong values are right in their low byte, or as a shift count.
    fn spoil_k(&mut self, random: &mut Random) {
        let low_byte = 256 + self.sizes.k();
        self.k = random.pick(&[0, 1, 2, 9, 10, 16, 32, 64, 255, low_byte, 1 << 31, u32::MAX]);
    }

    fn spoil_levels(&mut self, random: &mut Random) {
        let low_byte = 256 + self.sizes.levels();
        let over = sizes::most_levels(self.sizes.k()) + 1;
        self.levels = random.pick(&[0, over, over, 6, 32, low_byte, 1 << 31, u32::MAX]);
    }

    fn spoil(&mut self, random: &mut Random) {
        if random.one_in(2) {
            self.spoil_k(random);
        } else {
            self.spoil_levels(random);
        }
    }
}

/// A length other than the right one, most often near it.
fn wrong_length(random: &mut Random, right: usize, most: usize) -> usize {
    let anything = random.index(2 * right + 9);
    let near = [right + 1, right.saturating_sub(1)];
    let far = [0, 1, right / 4, right + right / 2, anything];
    let length = if random.one_in(2) {
        random.pick(&near)
    } else {
        random.pick(&far)
    };
    if length == right {
        right + 1
    } else {
        length.min(most)
    }
}

/// Gives a list of greys or numbers a wrong length.
fn spoil_list<T: Clone + From<u8>>(random: &mut Random, list: &mut Vec<T>) {
    let length = wrong_length(random, list.len(), MOST_NUMBERS);
    list.resize(length, random.byte().into());
}

/// Puts a number beyond the limits somewhere.
fn spoil_number(random: &mut Random, numbers: &mut [i32]) {
    let anything = (random.draw() as i32) | (1 << 18);
    let beyond = random.pick(&[
        LARGEST_MAGNITUDE + 1,
        -LARGEST_MAGNITUDE - 1,
        i32::MIN,
        i32::MAX,
        anything.max(LARGEST_MAGNITUDE + 1),
        (-1 - anything).min(-LARGEST_MAGNITUDE - 1),
    ]);
    if !numbers.is_empty() {
        let last = numbers.len() - 1;
        let anywhere = random.index(numbers.len());
        numbers[random.pick(&[0, last, anywhere])] = beyond;
    }
}

fn wrong_planes(random: &mut Random) -> u32 {
    random.pick(&[MOST_PLANES + 1, 20, 31, 32, 255, 256 + 3, 1 << 31, u32::MAX])
}

/// A count of bits that these bytes do not hold.
fn beyond(random: &mut Random, bytes: &[u8]) -> u64 {
    let lent = 8 * bytes.len() as u64;
    let by = 1 + random.below(5_000);
    random.pick(&[
        lent + 1,
        lent + 8,
        lent + by,
        1 << 61,
        (1 << 61) + lent,
        u64::MAX,
    ])
}

/// A part of so many bits: none, one, all, all but one, or any part, on a byte
/// or between.
fn cut(random: &mut Random, total: u64) -> u64 {
    let anywhere = random.below(total + 1);
    let part = random.pick(&[0, 1, total, total, total.saturating_sub(1), anywhere]);
    let on_byte = random.one_in(6);
    if on_byte {
        anywhere / 8 * 8
    } else {
        part.min(total)
    }
}

fn forward(random: &mut Random, largest: u32) -> Request {
    let mut sent = Sent::new(random, largest);
    let mut picture = samples::picture(random, sent.sizes);
    let mut numbers = sent.sizes.places();
    for _ in 0..spoils(random) {
        match random.below(3) {
            0 => sent.spoil(random),
            1 => spoil_list(random, &mut picture),
            _ => numbers = wrong_length(random, numbers, MOST_NUMBERS),
        }
    }
    Request::Forward {
        k: sent.k,
        levels: sent.levels,
        picture,
        numbers,
    }
}

fn coding(random: &mut Random, largest: u32) -> Request {
    let mut sent = Sent::new(random, largest);
    let mut numbers = samples::numbers(random, sent.sizes);
    let total = samples::coding(sent.sizes, &numbers).count;
    let whole = bits::bytes_for(total);
    let part = cut(random, whole as u64) as usize;
    let surplus = random.index(20);
    let bytes = random.pick(&[whole, whole, whole + 1, whole + surplus, part]);
    let lent = 8 * bytes as u64;
    let part = cut(random, total);
    let limit = random.pick(&[
        u64::MAX,
        total,
        total + 1,
        lent,
        lent + 1,
        lent.saturating_sub(1),
        part,
        part,
    ]);
    for _ in 0..spoils(random) {
        match random.below(3) {
            0 => sent.spoil(random),
            1 => spoil_list(random, &mut numbers),
            _ => spoil_number(random, &mut numbers),
        }
    }
    Request::Coding {
        k: sent.k,
        levels: sent.levels,
        numbers,
        limit,
        bytes,
    }
}

fn decoding(random: &mut Random, largest: u32) -> Request {
    let mut sent = Sent::new(random, largest);
    let samples::Bits {
        mut planes,
        mut bytes,
        count: total,
    } = samples::bits(random, sent.sizes);
    let mut count = cut(random, total);
    match random.below(4) {
        0 => bytes.truncate(bits::bytes_for(count)),
        1 => {
            // Bits after the walk's last, which it must not read.
            let surplus = random.index(9);
            bytes.extend(random.bytes(surplus));
            count = 8 * bytes.len() as u64;
        }
        _ => {}
    }
    let mut numbers = sent.sizes.places();
    for _ in 0..spoils(random) {
        match random.below(4) {
            0 => sent.spoil(random),
            1 => numbers = wrong_length(random, numbers, MOST_NUMBERS),
            2 => planes = wrong_planes(random),
            _ => count = beyond(random, &bytes),
        }
    }
    Request::Decoding {
        k: sent.k,
        levels: sent.levels,
        planes,
        numbers,
        bytes,
        count,
    }
}

fn inverse(random: &mut Random, largest: u32) -> Request {
    let mut sent = Sent::new(random, largest);
    let mut numbers = samples::numbers(random, sent.sizes);
    let mut picture = sent.sizes.places();
    let mut room = sent.sizes.places();
    for _ in 0..spoils(random) {
        match random.below(5) {
            0 => sent.spoil(random),
            1 => spoil_list(random, &mut numbers),
            2 => picture = wrong_length(random, picture, MOST_NUMBERS),
            3 => room = wrong_length(random, room, MOST_NUMBERS),
            _ => spoil_number(random, &mut numbers),
        }
    }
    Request::Inverse {
        k: sent.k,
        levels: sent.levels,
        numbers,
        picture,
        room,
    }
}

/// The room for the blocks of so many bits.
fn room_for(edition: Edition, count: u64) -> usize {
    record::block_count(edition, count) as usize * LENGTH
}

/// A count up to `most` that takes one block more in edition 2 than in edition
/// 1, the ends of its range often; none if `most` is too low for any.
fn between_editions(random: &mut Random, most: u64) -> Option<u64> {
    let [one, two] = Edition::BOTH.map(|edition| u64::from(edition.payload_bits()));
    let blocks = 1 + random.below(3);
    let (from, to) = (two * blocks + 1, most.min(one * blocks));
    (from <= to).then(|| {
        let anywhere = from + random.below(to - from + 1);
        random.pick(&[from, to, anywhere])
    })
}

/// A request for record writing under construction.
struct Writing {
    sent: Sent,
    edition: Edition,
    /// The bound of the walk.
    most: u64,
    planes: u32,
    origin: Origin,
    label: Vec<u8>,
    bytes: Vec<u8>,
    count: u64,
    room: usize,
}

impl Writing {
    /// One that is good but for its room, which now and then is short.
    fn new(random: &mut Random, largest: u32) -> Writing {
        let sent = Sent::new(random, largest);
        let samples::Bits {
            planes,
            bytes,
            count: total,
        } = samples::bits(random, sent.sizes);
        let edition = samples::edition(random);
        let mut origin = samples::origin(random, edition);
        // Edition 1 ignores them.
        if edition == Edition::One && random.one_in(2) {
            samples::spoil_names(random, &mut origin);
        }
        let mut writing = Writing {
            most: sent.sizes.most_bits(planes),
            sent,
            edition,
            planes,
            origin,
            label: samples::label(random),
            bytes,
            count: 0,
            room: 0,
        };
        writing.measure(random, total);
        writing
    }

    /// Sets the count, and lends bytes that hold it.
    fn hold(&mut self, random: &mut Random, count: u64) {
        let missing = bits::bytes_for(count).saturating_sub(self.bytes.len());
        self.bytes.extend(samples::payload(random, missing));
        self.count = count;
    }

    /// Sets the count, often next to a limit, and the room.
    fn measure(&mut self, random: &mut Random, total: u64) {
        if random.one_in(2) {
            if let Some(count) = between_editions(random, self.most) {
                self.hold(random, count);
                // What one of the editions wants, or one byte under that.
                let edition = random.pick(&Edition::BOTH);
                self.room = room_for(edition, count) - random.index(2);
                return;
            }
        }
        let full = u64::from(self.edition.payload_bits());
        let count = match random.below(6) {
            0 => self.most,
            1 if total > full => {
                let near = full * (1 + random.below(total / full)) - 1 + random.below(3);
                near.min(total)
            }
            _ => cut(random, total),
        };
        self.hold(random, count.min(self.most));
        let surplus = random.index(2 * LENGTH);
        self.room = room_for(self.edition, self.count) + random.pick(&[0, 0, 1, surplus]);
    }

    /// Puts in one of the faults 0 to 6, which are judged in this order.
    fn spoil(&mut self, random: &mut Random, fault: u64) {
        match fault {
            0 => self.sent.spoil_k(random),
            1 => self.sent.spoil_levels(random),
            2 => self.planes = wrong_planes(random),
            3 => self.origin.edition = samples::neither_1_nor_2(random),
            4 => self.spoil_measure(random),
            5 => self.label = samples::wrong_label(random),
            _ => samples::spoil_names(random, &mut self.origin),
        }
    }

    /// More bits than lent, or than the walk can have, or too little room.
    fn spoil_measure(&mut self, random: &mut Random) {
        match random.below(3) {
            0 => self.count = beyond(random, &self.bytes),
            1 => {
                let by = random.pick(&[1, 2, 8, 64, self.edition.payload_bits().into()]);
                self.hold(random, self.most + by);
                self.room = room_for(self.edition, self.count);
            }
            _ => {
                let wanted = room_for(self.edition, self.count);
                let short = 1 + random.index(wanted);
                self.room = wanted - random.pick(&[1, short, LENGTH, wanted]);
            }
        }
    }
}

/// Most often none or few of so many faults, as the bits of a number.
fn few_of(random: &mut Random, faults: u64) -> u64 {
    (0..spoils(random)).fold(0, |chosen, _| chosen | 1 << random.below(faults))
}

/// The faults that are chosen by the bits of a number, the lowest first.
fn chosen(faults: u64) -> impl Iterator<Item = u64> {
    (0..64).filter(move |fault| faults >> fault & 1 == 1)
}

/// Which of the seven faults a request for record writing has: most often none
/// or few of them, sometimes any choice, and now and then the edition or the
/// names alone, of which many values are wrong.
fn writing_faults(random: &mut Random) -> impl Iterator<Item = u64> {
    let few = few_of(random, 7);
    let any = random.below(1 << 7);
    let alone = random.pick(&[1 << 3, 1 << 6, 1 << 6, 1 << 6]);
    chosen(random.pick(&[few, few, few, any, alone, alone]))
}

fn record_writing(random: &mut Random, largest: u32) -> Request {
    let mut writing = Writing::new(random, largest);
    for fault in writing_faults(random) {
        writing.spoil(random, fault);
    }
    Request::RecordWriting {
        k: writing.sent.k,
        levels: writing.sent.levels,
        planes: writing.planes,
        origin: writing.origin,
        label: writing.label,
        bytes: writing.bytes,
        count: writing.count,
        room: writing.room,
    }
}

fn record_reading(random: &mut Random, largest: u32) -> Request {
    let (mut record, mut label) = damage::whole_record(random, largest);
    for _ in 0..random.pick(&[0, 0, 1, 1, 1, 1, 1, 2, 3]) {
        damage::damage_record(random, largest, &mut record);
    }
    let mut blocks = record.concat();
    match random.below(8) {
        0 => {
            let anywhere = random.index(blocks.len() + 1);
            let on_block = anywhere / LENGTH * LENGTH;
            blocks.truncate(random.pick(&[anywhere, on_block, on_block.saturating_sub(1)]));
        }
        1 => {
            let tail = random.index(LENGTH);
            blocks.extend(random.bytes(tail));
        }
        _ => {}
    }
    let wanted = blocks.len() / LENGTH * READER_ROOM;
    let surplus = random.index(2 * READER_ROOM);
    let mut room = wanted + random.pick(&[0, 0, 1, surplus]);
    // Most often the blocks alone decide.
    let spoils = if random.one_in(3) { spoils(random) } else { 0 };
    for _ in 0..spoils {
        match random.below(4) {
            0 => {
                let few = random.index(LENGTH);
                blocks.truncate(random.pick(&[0, 1, few, LENGTH - 1]));
            }
            1 => {
                // One byte under, or as much as the payloads of edition 2 take.
                let next = wanted.saturating_sub(1);
                let narrow = wanted / READER_ROOM * Edition::Two.payload_length();
                let anywhere = next.saturating_sub(random.index(wanted + 1));
                room = random.pick(&[next, narrow, anywhere]);
            }
            2 => label = samples::wrong_label(random),
            _ => label = samples::label(random),
        }
    }
    Request::RecordReading {
        blocks,
        label,
        room,
    }
}

fn block_check(random: &mut Random, largest: u32) -> Request {
    let (record, _) = damage::whole_record(random, largest);
    let mut block = random.pick(&record);
    for _ in 0..random.pick(&[0, 1, 1, 1, 2]) {
        damage::damage_block(random, &mut block);
    }
    if random.one_in(20) {
        block.copy_from_slice(&random.bytes(LENGTH));
        block::write_checks(&mut block);
    }
    let mut block = block.to_vec();
    if random.one_in(8) {
        let length = wrong_length(random, LENGTH, MOST_BYTES);
        block.resize(random.pick(&[length, 2 * LENGTH]), 0);
    }
    Request::BlockCheck { block }
}

/// An r out of its range, most often next to it; some are right in their low
/// byte, or as a shift count.
fn wrong_halvings(random: &mut Random, sizes: Sizes) -> u32 {
    let over = sizes.levels() + 1;
    let low_byte = 256 + sizes.levels();
    let far = random.pick(&[sizes.k() + 1, 6, 32, 33, low_byte, 1 << 31, u32::MAX]);
    random.pick(&[0, over, far.max(over)])
}

/// The length of a picture or a room that is no thumbnail's: S², as the inverse
/// wants it, or another wrong one.
fn wrong_greys(random: &mut Random, sizes: Sizes, right: usize) -> usize {
    if random.one_in(3) {
        sizes.places()
    } else {
        wrong_length(random, right, MOST_NUMBERS)
    }
}

fn thumbnail(random: &mut Random, largest: u32) -> Request {
    let mut sent = Sent::new(random, largest);
    let sizes = sent.sizes;
    let mut halvings = 1 + random.below(sizes.levels().into()) as u32;
    let mut numbers = samples::numbers(random, sizes);
    let greys = sizes.halved_places(halvings);
    let (mut picture, mut room) = (greys, greys);
    for _ in 0..spoils(random) {
        let first = greys.min(numbers.len());
        match random.below(9) {
            0 => sent.spoil(random),
            1 => halvings = wrong_halvings(random, sizes),
            2 => spoil_list(random, &mut numbers),
            3 => numbers.truncate(greys),
            4 => picture = wrong_greys(random, sizes, greys),
            5 => room = wrong_greys(random, sizes, greys),
            6 => (picture, room) = (sizes.places(), sizes.places()),
            7 => spoil_number(random, &mut numbers[..first]),
            // Beyond the limits behind the first (S/2^r)², where 4 does not look.
            _ => spoil_number(random, &mut numbers[first..]),
        }
    }
    Request::Thumbnail {
        k: sent.k,
        levels: sent.levels,
        halvings,
        numbers,
        picture,
        room,
    }
}

/// Numbers with the p and the place that a decoder gave with them, most often of
/// a coding; or numbers of any kind, with any p and place.
fn displayed(random: &mut Random, sizes: Sizes) -> (Vec<i32>, u32, u64) {
    if random.one_in(3) {
        let numbers = samples::numbers(random, sizes);
        let (first, last) = (0, sizes.places() as u64 - 1);
        let anywhere = random.below(last + 1);
        let place = random.pick(&[first, last, anywhere, anywhere]);
        return (numbers, samples::planes(random), place);
    }
    let bits = samples::bits(random, sizes);
    let count = cut(random, bits.count);
    let mut numbers = vec![0; sizes.places()];
    let (unfinished, _, place) = walk::decode(sizes, bits.planes, &mut numbers, &bits.bytes, count);
    (numbers, unfinished, place.0 as u64)
}

/// A place of S² or more, most often next to it; some are right in their low
/// half.
fn wrong_place(random: &mut Random, sizes: Sizes) -> u64 {
    let over = sizes.places() as u64;
    let far = random.pick(&[2 * over, 1 << 16, 1 << 31, 1 << 32, 1 << 63]) + random.below(over);
    random.pick(&[over, over, over + 1, far, u64::MAX, u64::MAX])
}

/// Which of the six faults a request for display has, in the order they are
/// judged in: most often none or few of them, sometimes any choice, or two that
/// are neighbours, or p or the place alone, of which many values are wrong.
fn display_faults(random: &mut Random) -> impl Iterator<Item = u64> {
    let few = few_of(random, 6);
    let any = random.below(1 << 6);
    let neighbours = 0b11 << random.below(5);
    let alone = random.pick(&[1 << 4, 1 << 5]);
    chosen(random.pick(&[0, 0, 0, 0, few, few, any, neighbours, alone]))
}

fn display(random: &mut Random, largest: u32) -> Request {
    let mut sent = Sent::new(random, largest);
    let sizes = sent.sizes;
    let (mut numbers, mut unfinished, mut place) = displayed(random, sizes);
    let (mut picture, mut room) = (sizes.places(), sizes.places());
    for fault in display_faults(random) {
        match fault {
            0 => sent.spoil_k(random),
            1 => sent.spoil_levels(random),
            2 => match random.below(3) {
                0 => spoil_list(random, &mut numbers),
                1 => picture = wrong_length(random, picture, MOST_NUMBERS),
                _ => room = wrong_length(random, room, MOST_NUMBERS),
            },
            3 => spoil_number(random, &mut numbers),
            4 => unfinished = wrong_planes(random),
            _ => place = wrong_place(random, sizes),
        }
    }
    Request::Display {
        k: sent.k,
        levels: sent.levels,
        unfinished,
        place,
        numbers,
        picture,
        room,
    }
}
