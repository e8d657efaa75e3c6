//! The paper once more in a deliberately different way, as a check on the
//! program: mirrored lines in floating point, a coder and a decoder apart with
//! a stack of steps, bits in lists, and refusals as lists of conditions.

use second::edition::Origin;
use second::transcript::{lent_bytes, lent_numbers, Answer, Field, Request};

// --- Sizes and places ---

/// The most levels of a side, or none for a side that isn't served.
fn most_levels(k: u32) -> Option<u32> {
    let table = [(3, 2), (4, 3), (5, 4), (6, 5), (7, 5), (8, 5)];
    table
        .iter()
        .find(|(side, _)| *side == k)
        .map(|(_, most)| *most)
}

/// The Z place by quadrants: upper left, upper right, lower left, lower right.
pub fn z_place(row: usize, column: usize, side: usize) -> usize {
    if side == 1 {
        return 0;
    }
    let half = side / 2;
    let quadrant = 2 * (row / half) + column / half;
    quadrant * half * half + z_place(row % half, column % half, half)
}

// --- The transform ---

type Square = Vec<Vec<f64>>;

fn transposed(square: &Square) -> Square {
    let columns = 0..square.len();
    columns
        .map(|column| square.iter().map(|row| row[column]).collect())
        .collect()
}

/// A line as if mirrored at both ends without end.
fn mirrored(x: &[f64], i: isize) -> f64 {
    let last = x.len() as isize - 1;
    let i = i.rem_euclid(2 * last);
    x[i.min(2 * last - i) as usize]
}

fn forward_line(x: &[f64]) -> Vec<f64> {
    let high = |i: isize| {
        let lows = mirrored(x, 2 * i) + mirrored(x, 2 * i + 2);
        mirrored(x, 2 * i + 1) - (lows / 2.0).floor()
    };
    let low = |i: isize| mirrored(x, 2 * i) + ((high(i - 1) + high(i) + 2.0) / 4.0).floor();
    let half = x.len() as isize / 2;
    (0..half).map(low).chain((0..half).map(high)).collect()
}

fn inverse_line(line: &[f64]) -> Vec<f64> {
    let half = line.len() / 2;
    let high = |i: usize| line[half + i];
    let even = |i: usize| {
        let before = if i == 0 { high(0) } else { high(i - 1) };
        line[i] - ((before + high(i) + 2.0) / 4.0).floor()
    };
    let odd = |i: usize| {
        let next = if i + 1 == half { even(i) } else { even(i + 1) };
        high(i) + ((even(i) + next) / 2.0).floor()
    };
    (0..half).flat_map(|i| [even(i), odd(i)]).collect()
}

/// Changes the lines of the upper left square, all rows or all columns.
fn change_lines(square: &Square, m: usize, rows: bool, change: fn(&[f64]) -> Vec<f64>) -> Square {
    let mut lines = if rows {
        square.clone()
    } else {
        transposed(square)
    };
    for line in lines.iter_mut().take(m) {
        let changed = change(&line[..m]);
        line.splice(..m, changed);
    }
    if rows {
        lines
    } else {
        transposed(&lines)
    }
}

pub fn forward(k: u32, levels: u32, picture: &[u8]) -> Vec<i32> {
    let side = 1 << k;
    let rows = picture.chunks(side);
    let mut square: Square = rows
        .map(|row| row.iter().map(|grey| f64::from(*grey) - 128.0).collect())
        .collect();
    for level in 0..levels {
        square = change_lines(&square, side >> level, true, forward_line);
        square = change_lines(&square, side >> level, false, forward_line);
    }
    let mut numbers = vec![0; side * side];
    for (row, line) in square.iter().enumerate() {
        for (column, value) in line.iter().enumerate() {
            numbers[z_place(row, column, side)] = *value as i32;
        }
    }
    numbers
}

/// The greys of all rows, before they are set into 0 to 255. It stops before
/// the last `left` levels, and then gives the upper left square alone.
fn inverse(k: u32, levels: u32, left: u32, numbers: &[i32]) -> Square {
    let side = 1 << k;
    let mut square = vec![vec![0.0; side]; side];
    for (row, line) in square.iter_mut().enumerate() {
        for (column, value) in line.iter_mut().enumerate() {
            *value = f64::from(numbers[z_place(row, column, side)]);
        }
    }
    for level in (left..levels).rev() {
        square = change_lines(&square, side >> level, false, inverse_line);
        square = change_lines(&square, side >> level, true, inverse_line);
    }
    square.truncate(side >> left);
    for line in &mut square {
        line.truncate(side >> left);
        for value in line {
            *value += 128.0;
        }
    }
    square
}

/// The numbers for display. With none of its unread bits set a number is as it
/// stands; it is shown with the highest of them set, moved up in magnitude by half
/// of what they leave unknown. Before the place that of the running plane has been
/// read.
fn displayed(unfinished: u32, place: usize, numbers: &[i32]) -> Vec<i32> {
    let mut shown = numbers.to_vec();
    for (z, number) in shown.iter_mut().enumerate() {
        let mut unread: Vec<u32> = (0..unfinished).collect();
        if z < place {
            unread.pop();
        }
        let bit = unread.last().map_or(0, |plane| 2_i32.pow(*plane));
        *number += bit * number.signum();
    }
    shown
}

/// The picture, and the room in Z order. A float turned into a byte is set into
/// 0 to 255.
fn shown(square: &Square) -> (Vec<u8>, Vec<i32>) {
    let picture = square.iter().flatten().map(|grey| *grey as u8).collect();
    let side = square.len();
    let mut room = vec![0; side * side];
    for (row, line) in square.iter().enumerate() {
        for (column, grey) in line.iter().enumerate() {
            room[z_place(row, column, side)] = *grey as i32;
        }
    }
    (picture, room)
}

// --- The walk ---

#[derive(Clone, Copy)]
enum Step {
    Set { start: usize, length: usize },
    Rest { q: usize },
    Number { place: usize },
}

/// The steps that an open set, or an open rest, stands for, last one first.
fn opened(step: Step) -> Vec<Step> {
    match step {
        Step::Set { start, length: 4 } => (start..start + 4)
            .rev()
            .map(|place| Step::Number { place })
            .collect(),
        Step::Set { start, length } => {
            let length = length / 4;
            let starts = (0..4).rev().map(|part| start + part * length);
            starts.map(|start| Step::Set { start, length }).collect()
        }
        Step::Rest { q } => {
            let mut steps = vec![Step::Rest { q: 4 * q }];
            let starts = [3 * q, 2 * q, q];
            steps.extend(starts.map(|start| Step::Set { start, length: q }));
            steps
        }
        Step::Number { .. } => Vec::new(),
    }
}

fn first_steps(k: u32, levels: u32) -> Vec<Step> {
    let band = (1 << k) >> levels;
    let length = band * band;
    vec![Step::Rest { q: length }, Step::Set { start: 0, length }]
}

/// The largest magnitude of the places that a step tests; none for a number,
/// and none for a rest that is empty.
fn largest(numbers: &[i32], step: Step) -> Option<i32> {
    let tested = match step {
        Step::Set { start, length } => &numbers[start..start + length],
        Step::Rest { q } => &numbers[q.min(numbers.len())..],
        Step::Number { .. } => &[],
    };
    tested.iter().map(|number| number.abs()).max()
}

/// Where the places of a step begin.
fn start_of(step: Step) -> usize {
    match step {
        Step::Set { start, .. } => start,
        Step::Rest { q } => q,
        Step::Number { place } => place,
    }
}

/// One bit of a coding, its plane, where the places begin that it speaks of, and
/// the number it settles.
pub struct CodedBit {
    pub plane: u32,
    pub place: usize,
    pub bit: bool,
    pub settles: Option<(usize, i32)>,
}

/// The whole coding of numbers as a list of bits, and the set tests of each
/// plane, highest first.
pub struct Coding {
    pub planes: u32,
    pub bits: Vec<CodedBit>,
    pub tests: Vec<usize>,
}

pub fn coding(k: u32, levels: u32, numbers: &[i32]) -> Coding {
    let most = numbers.iter().map(|number| number.abs()).max().unwrap_or(0);
    let planes = (0..)
        .find(|planes| most < 1 << planes)
        .expect("magnitudes are below 2^18");
    let (mut bits, mut tests) = (Vec::new(), Vec::new());
    for plane in (0..planes).rev() {
        let t = 1 << plane;
        let mut put = |step, bit, settles| {
            bits.push(CodedBit {
                plane,
                place: start_of(step),
                bit,
                settles,
            })
        };
        let mut tests_here = 0;
        let mut steps = first_steps(k, levels);
        while let Some(step) = steps.pop() {
            if let Step::Number { place } = step {
                let number = numbers[place];
                let magnitude = number.abs();
                let settled = number.signum() * (magnitude / t * t);
                if magnitude >= 2 * t {
                    put(step, magnitude / t % 2 == 1, Some((place, settled)));
                } else if magnitude >= t {
                    put(step, true, None);
                    put(step, number < 0, Some((place, settled)));
                } else {
                    put(step, false, None);
                }
            } else if let Some(most) = largest(numbers, step) {
                tests_here += 1;
                if most < 2 * t {
                    put(step, most >= t, None);
                }
                if most >= t {
                    steps.extend(opened(step));
                }
            }
        }
        tests.push(tests_here);
    }
    Coding {
        planes,
        bits,
        tests,
    }
}

impl Coding {
    /// What the first `count` bits settle, and the unfinished planes.
    pub fn settled(&self, places: usize, count: usize) -> (Vec<i32>, u32) {
        let mut numbers = vec![0; places];
        for (place, number) in self.bits[..count].iter().filter_map(|bit| bit.settles) {
            numbers[place] = number;
        }
        let unread = self.bits[count..].iter().map(|bit| bit.plane + 1);
        (numbers, unread.max().unwrap_or(0))
    }

    /// Where a cut to `count` bits falls: the walk goes through the places in
    /// their order, so it is where the next bit's places begin.
    pub fn place(&self, count: usize) -> usize {
        self.bits.get(count).map_or(0, |next| next.place)
    }
}

/// What a decoding gives: the numbers, the unfinished planes, the bits read, and
/// where the places begin of the step that lacks a bit.
pub struct Decoding {
    pub numbers: Vec<i32>,
    pub unfinished: u32,
    pub read: usize,
    pub place: usize,
}

pub fn decoding(k: u32, levels: u32, planes: u32, bits: &[bool]) -> Decoding {
    let mut numbers = vec![0_i32; 1 << (2 * k)];
    let mut read = 0;
    for plane in (0..planes).rev() {
        let t = 1 << plane;
        let mut steps = first_steps(k, levels);
        while let Some(step) = steps.pop() {
            if let Step::Number { place } = step {
                let known = numbers[place].abs() >= 2 * t;
                let wanted = if !known && bits.get(read) == Some(&true) {
                    2
                } else {
                    1
                };
                if read + wanted > bits.len() {
                    return Decoding {
                        numbers,
                        unfinished: plane + 1,
                        read: bits.len(),
                        place,
                    };
                }
                let negative = if known {
                    numbers[place] < 0
                } else {
                    bits[read + wanted - 1]
                };
                if bits[read] {
                    numbers[place] += if negative { -t } else { t };
                }
                read += wanted;
            } else if let Some(most) = largest(&numbers, step) {
                let open = if most >= 2 * t {
                    true
                } else if read < bits.len() {
                    read += 1;
                    bits[read - 1]
                } else {
                    return Decoding {
                        numbers,
                        unfinished: plane + 1,
                        read,
                        place: start_of(step),
                    };
                };
                if open {
                    steps.extend(opened(step));
                }
            }
        }
    }
    Decoding {
        numbers,
        unfinished: 0,
        read,
        place: 0,
    }
}

// --- Bits and blocks ---

pub fn bits_of(bytes: &[u8], count: usize) -> Vec<bool> {
    let bits = bytes
        .iter()
        .flat_map(|byte| (0..8).rev().map(move |i| byte >> i & 1 == 1));
    bits.take(count).collect()
}

/// The bytes of a list of bits, spare bits 0.
pub fn bytes_of(bits: &[bool]) -> Vec<u8> {
    let bytes = bits.chunks(8);
    bytes
        .map(|byte| {
            (0..8).fold(0, |value, i| {
                value * 2 + u8::from(byte.get(i) == Some(&true))
            })
        })
        .collect()
}

/// The checks, reduced after every byte.
fn checks(block: &[u8]) -> [u8; 4] {
    let (mut a, mut b) = (0_u32, 0_u32);
    for (i, byte) in block[..508].iter().enumerate() {
        a = (a + u32::from(*byte)) % 65_521;
        b = (b + (i as u32 + 1) * u32::from(*byte)) % 65_521;
    }
    [(a / 256) as u8, a as u8, (b / 256) as u8, b as u8]
}

/// Where an edition's payload starts, and the bits that it takes; none for an
/// edition that there isn't.
fn layout(edition: u32) -> Option<(usize, usize)> {
    match edition {
        1 => Some((16, 3_936)),
        2 => Some((20, 3_904)),
        _ => None,
    }
}

/// The blocks of a record, built field after field.
fn record(sizes: [u32; 3], origin: Origin, label: &[u8], bits: &[bool]) -> Vec<u8> {
    let (_, full) = layout(origin.edition).expect("a refused edition is not written");
    let no_bits: &[bool] = &[];
    let payloads: Vec<&[bool]> = if bits.is_empty() {
        vec![no_bits]
    } else {
        bits.chunks(full).collect()
    };
    let mut record = Vec::new();
    for (number, payload) in payloads.iter().enumerate() {
        let mut block = vec![origin.edition as u8];
        block.extend(sizes.map(|size| size as u8));
        block.extend(label);
        block.extend([(number / 256) as u8, number as u8]);
        block.extend([(payload.len() / 256) as u8, payload.len() as u8]);
        if origin.edition == 2 {
            block.push(origin.arm as u8);
            block.extend([65_536, 256, 1].map(|unit| (origin.mount / unit) as u8));
        }
        block.extend(bytes_of(payload));
        block.resize(508, 0);
        block.extend(checks(&block));
        record.extend(block);
    }
    record
}

/// By the list of a label's characters, where the program has ranges.
pub fn is_label(label: &[u8]) -> bool {
    let characters = b"0123456789ABCDEFGHIJKLMNOPQRSTUVWXYZ";
    label.len() == 8 && label.iter().all(|byte| characters.contains(byte))
}

fn word(block: &[u8], place: usize) -> usize {
    usize::from(block[place]) * 256 + usize::from(block[place + 1])
}

/// The lowest number whose condition holds, or 0.
fn lowest(conditions: &[(u32, bool)]) -> u32 {
    let given = conditions.iter().filter(|(_, holds)| *holds);
    given.map(|(number, _)| *number).min().unwrap_or(0)
}

/// The first number whose condition holds, or 0: where 13 comes before 3, and a
/// 9 before 6.
fn first(conditions: &[(u32, bool)]) -> u32 {
    let mut given = conditions.iter().filter(|(_, holds)| *holds);
    given.next().map_or(0, |(number, _)| *number)
}

/// Whether 9 applies, for an edition whose payload is so laid out.
fn wrong_fields(block: &[u8], (start, full): (usize, usize)) -> bool {
    let [k, levels, planes] = [1, 2, 3].map(|place| u32::from(block[place]));
    let count = word(block, 14);
    let bits = bits_of(&block[start..508], full);
    most_levels(k).map_or(true, |most| levels < 1 || levels > most)
        || planes > 18
        || !is_label(&block[4..12])
        || (block[0] == 2 && ![1, 2].contains(&block[16]))
        || count > full
        || bits.iter().skip(count).any(|bit| *bit)
}

fn judge_alone(block: &[u8]) -> u32 {
    let layout = layout(block[0].into());
    let wrong = layout.map_or(true, |layout| wrong_fields(block, layout));
    lowest(&[(8, block[508..] != checks(block)), (9, wrong)])
}

/// The places of a record's blocks that must agree.
fn common_places(edition: u8) -> Vec<usize> {
    match edition {
        2 => (0..12).chain(16..20).collect(),
        _ => (0..12).collect(),
    }
}

fn judge_in_turn(blocks: &[&[u8]], turn: usize, label: &[u8]) -> u32 {
    let (block, first) = (blocks[turn], blocks[0]);
    let alone = judge_alone(block);
    let mut common = common_places(first[0]).into_iter();
    let out_of_turn = word(block, 12) != turn
        || common.any(|place| block[place] != first[place])
        || &block[4..12] != label;
    lowest(&[(alone, alone != 0), (10, out_of_turn)])
}

fn is_full(block: &[u8]) -> bool {
    layout(block[0].into()).map_or(false, |(_, full)| word(block, 14) == full)
}

/// The length of the longest run that may be kept, tried from the longest on.
fn longest_run(blocks: &[&[u8]], label: &[u8]) -> usize {
    let sound: Vec<bool> = (0..blocks.len())
        .map(|turn| judge_in_turn(blocks, turn, label) == 0)
        .collect();
    let full: Vec<bool> = blocks.iter().map(|block| is_full(block)).collect();
    let lengths = (1..=blocks.len()).rev();
    lengths
        .filter(|length| sound[..*length].iter().all(|sound| *sound))
        .find(|length| full[..length - 1].iter().all(|full| *full))
        .unwrap_or(0)
}

// --- The jobs ---

/// The conditions of 1 and 2. Of a k that isn't served 1 is told first.
fn wrong_sizes(k: u32, levels: u32) -> [(u32, bool); 2] {
    let most = most_levels(k);
    let levels_wrong = levels == 0 || levels > most.unwrap_or(5);
    [(1, most.is_none()), (2, levels_wrong)]
}

/// The condition of 3; without a served k no length is right or wrong.
fn wrong_lengths(k: u32, lengths: &[usize]) -> (u32, bool) {
    let wanted = most_levels(k).map(|_| 4_usize.pow(k));
    let wrong = wanted.map_or(false, |wanted| {
        lengths.iter().any(|length| *length != wanted)
    });
    (3, wrong)
}

fn wrong_numbers(numbers: &[i32]) -> (u32, bool) {
    let beyond = |number: &i32| i64::from(*number).abs() > 262_143;
    (4, numbers.iter().any(beyond))
}

/// n(4S² - 1)/3 + S² as a sum over the planes and the signs.
fn bound(k: u32, planes: u32) -> u128 {
    let quarters = (0..k).map(|level| 4_u128.pow(level));
    let tests: u128 = quarters.sum();
    let numbers = 4_u128.pow(k);
    u128::from(planes) * (tests + numbers) + numbers
}

/// Whether 6 applies to a writer; of an edition that there isn't, no room is
/// too little.
fn wrong_measure(layout: Option<(usize, usize)>, most: u128, count: u128, room: usize) -> bool {
    let little_room = layout.map_or(false, |(_, full)| {
        let full = full as u128;
        (room as u128) < 512 * ((count + full - 1) / full).max(1)
    });
    count > most || little_room
}

/// The conditions of a request for record writing, in the order they are judged
/// in.
pub fn writing_conditions(request: &Request) -> [(u32, bool); 7] {
    match request {
        Request::RecordWriting {
            k,
            levels,
            planes,
            origin,
            label,
            bytes,
            count,
            room,
        } => {
            let [wrong_side, wrong_levels] = wrong_sizes(*k, *levels);
            let layout = layout(origin.edition);
            let most = bound((*k).min(8), *planes).min(8 * bytes.len() as u128);
            let nobody = ![1, 2].contains(&origin.arm) || origin.mount >= 1 << 24;
            [
                wrong_side,
                wrong_levels,
                (5, *planes > 18),
                (9, layout.is_none()),
                (6, wrong_measure(layout, most, (*count).into(), *room)),
                (7, !is_label(label)),
                (9, origin.edition != 1 && nobody),
            ]
        }
        _ => panic!("no request for record writing"),
    }
}

/// The conditions of a request for display, in the order they are judged in. Of a
/// k that isn't served no place is right or wrong.
pub fn display_conditions(request: &Request) -> [(u32, bool); 6] {
    match request {
        Request::Display {
            k,
            levels,
            unfinished,
            place,
            numbers,
            picture,
            room,
        } => {
            let [wrong_side, wrong_levels] = wrong_sizes(*k, *levels);
            let nowhere = most_levels(*k).map_or(false, |_| *place >= 4_u64.pow(*k));
            [
                wrong_side,
                wrong_levels,
                wrong_lengths(*k, &[numbers.len(), *picture, *room]),
                wrong_numbers(numbers),
                (5, *unfinished > 18),
                (11, nowhere),
            ]
        }
        _ => panic!("no request for display"),
    }
}

/// Writes a list over the front of lent bytes.
fn over_front(mut lent: Vec<u8>, front: &[u8]) -> Vec<u8> {
    lent.splice(..front.len(), front.iter().copied());
    lent
}

pub fn answer(request: &Request) -> Answer {
    match request {
        Request::Forward {
            k,
            levels,
            picture,
            numbers,
        } => {
            let mut conditions = wrong_sizes(*k, *levels).to_vec();
            conditions.push(wrong_lengths(*k, &[picture.len(), *numbers]));
            let refusal = lowest(&conditions);
            let (planes, numbers) = if refusal == 0 {
                let numbers = forward(*k, *levels, picture);
                (coding(*k, *levels, &numbers).planes, numbers)
            } else {
                (0, lent_numbers(*numbers))
            };
            vec![
                ("refusal", Field::Small(refusal)),
                ("n", Field::Small(planes)),
                ("numbers", Field::Numbers(numbers)),
            ]
        }
        Request::Coding {
            k,
            levels,
            numbers,
            limit,
            bytes,
        } => {
            let mut conditions = wrong_sizes(*k, *levels).to_vec();
            conditions.push(wrong_lengths(*k, &[numbers.len()]));
            conditions.push(wrong_numbers(numbers));
            let refusal = lowest(&conditions);
            let lent = lent_bytes(*bytes);
            let (count, planes, bytes) = if refusal == 0 {
                let coding = coding(*k, *levels, numbers);
                let all: Vec<bool> = coding.bits.iter().map(|coded| coded.bit).collect();
                let limit = usize::try_from(*limit).unwrap_or(usize::MAX);
                let kept = &all[..all.len().min(limit).min(8 * bytes)];
                (kept.len(), coding.planes, over_front(lent, &bytes_of(kept)))
            } else {
                (0, 0, lent)
            };
            vec![
                ("refusal", Field::Small(refusal)),
                ("bits", Field::Large(count as u64)),
                ("n", Field::Small(planes)),
                ("bytes", Field::Bytes(bytes)),
            ]
        }
        Request::Decoding {
            k,
            levels,
            planes,
            numbers,
            bytes,
            count,
        } => {
            let mut conditions = wrong_sizes(*k, *levels).to_vec();
            conditions.push(wrong_lengths(*k, &[*numbers]));
            conditions.push((5, *planes > 18));
            conditions.push((6, u128::from(*count) > 8 * bytes.len() as u128));
            let refusal = lowest(&conditions);
            let decoding = if refusal == 0 {
                decoding(*k, *levels, *planes, &bits_of(bytes, *count as usize))
            } else {
                Decoding {
                    numbers: lent_numbers(*numbers),
                    unfinished: 0,
                    read: 0,
                    place: 0,
                }
            };
            vec![
                ("refusal", Field::Small(refusal)),
                ("unfinished", Field::Small(decoding.unfinished)),
                ("bits read", Field::Large(decoding.read as u64)),
                ("place", Field::Large(decoding.place as u64)),
                ("numbers", Field::Numbers(decoding.numbers)),
            ]
        }
        Request::Inverse {
            k,
            levels,
            numbers,
            picture,
            room,
        } => {
            let mut conditions = wrong_sizes(*k, *levels).to_vec();
            conditions.push(wrong_lengths(*k, &[numbers.len(), *picture, *room]));
            conditions.push(wrong_numbers(numbers));
            let refusal = lowest(&conditions);
            let (mut picture, mut room) = (lent_bytes(*picture), lent_numbers(*room));
            if refusal == 0 {
                (picture, room) = shown(&inverse(*k, *levels, 0, numbers));
            }
            vec![
                ("refusal", Field::Small(refusal)),
                ("picture", Field::Bytes(picture)),
                ("room", Field::Numbers(room)),
            ]
        }
        Request::RecordWriting {
            k,
            levels,
            planes,
            origin,
            label,
            bytes,
            count,
            room,
        } => {
            let refusal = first(&writing_conditions(request));
            let lent = lent_bytes(*room);
            let (blocks, room) = if refusal == 0 {
                let bits = bits_of(bytes, *count as usize);
                let record = record([*k, *levels, *planes], *origin, label, &bits);
                (record.len() / 512, over_front(lent, &record))
            } else {
                (0, lent)
            };
            vec![
                ("refusal", Field::Small(refusal)),
                ("blocks", Field::Small(blocks as u32)),
                ("room", Field::Bytes(room)),
            ]
        }
        Request::RecordReading {
            blocks,
            label,
            room,
        } => {
            let whole: Vec<&[u8]> = blocks
                .chunks(512)
                .filter(|block| block.len() == 512)
                .collect();
            let mut conditions = vec![(6, whole.is_empty() || *room < 492 * whole.len())];
            conditions.push((7, !is_label(label)));
            if !whole.is_empty() {
                let first = judge_in_turn(&whole, 0, label);
                conditions.push((first, first != 0));
            }
            let refusal = lowest(&conditions);
            let mut room = lent_bytes(*room);
            let mut values = [0; 8];
            let mut total = 0;
            if refusal == 0 {
                let run = longest_run(&whole, label);
                let field = |place: usize| u32::from(whole[0][place]);
                let start = if field(0) == 2 { 20 } else { 16 };
                let kept = whole[..run].iter();
                let bits: Vec<bool> = kept
                    .flat_map(|block| bits_of(&block[start..508], word(block, 14)))
                    .collect();
                let ended = if run < whole.len() && is_full(whole[run - 1]) {
                    judge_in_turn(&whole, run, label)
                } else {
                    0
                };
                let [k, levels, planes] = [1, 2, 3].map(field);
                let [arm, mount] = match field(0) {
                    2 => [field(16), field(17) * 65_536 + field(18) * 256 + field(19)],
                    _ => [0, 0],
                };
                values = [k, levels, planes, run as u32, ended, field(0), arm, mount];
                total = bits.len() as u64;
                room = over_front(room, &bytes_of(&bits));
            }
            let [k, levels, planes, run, ended, edition, arm, mount] = values.map(Field::Small);
            vec![
                ("refusal", Field::Small(refusal)),
                ("k", k),
                ("L", levels),
                ("n", planes),
                ("blocks", run),
                ("bits", Field::Large(total)),
                ("ended", ended),
                ("edition", edition),
                ("arm", arm),
                ("mount", mount),
                ("room", Field::Bytes(room)),
            ]
        }
        Request::BlockCheck { block } => {
            let refusal = if block.len() == 512 {
                judge_alone(block)
            } else {
                6
            };
            vec![("refusal", Field::Small(refusal))]
        }
        Request::Thumbnail {
            k,
            levels,
            halvings,
            numbers,
            picture,
            room,
        } => {
            let mut conditions = wrong_sizes(*k, *levels).to_vec();
            conditions.push((13, *halvings == 0 || halvings > levels));
            conditions.push(wrong_lengths(*k, &[numbers.len()]));
            // Of a wrong k or r it says nothing, and is asked nothing.
            let greys = 4_usize.pow(k.saturating_sub(*halvings).min(8));
            conditions.push((3, [picture, room] != [&greys, &greys]));
            conditions.push(wrong_numbers(&numbers[..greys.min(numbers.len())]));
            let refusal = first(&conditions);
            let (mut picture, mut room) = (lent_bytes(*picture), lent_numbers(*room));
            if refusal == 0 {
                (picture, room) = shown(&inverse(*k, *levels, *halvings, numbers));
            }
            vec![
                ("refusal", Field::Small(refusal)),
                ("picture", Field::Bytes(picture)),
                ("room", Field::Numbers(room)),
            ]
        }
        Request::Display {
            k,
            levels,
            unfinished,
            place,
            numbers,
            picture,
            room,
        } => {
            let refusal = first(&display_conditions(request));
            let (mut picture, mut room) = (lent_bytes(*picture), lent_numbers(*room));
            if refusal == 0 {
                let numbers = displayed(*unfinished, *place as usize, numbers);
                (picture, room) = shown(&inverse(*k, *levels, 0, &numbers));
            }
            vec![
                ("refusal", Field::Small(refusal)),
                ("picture", Field::Bytes(picture)),
                ("room", Field::Numbers(room)),
            ]
        }
    }
}
