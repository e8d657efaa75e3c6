//! That the cases the gate draws come to the corners of request 8: each refusal
//! of the writer before each later one, the limits of what edition 2 names, room
//! where the editions want unlike room, and records of both; and to those of
//! request 5: each refusal of a display before the next one, every p, and places
//! at the limit and beyond it. With `--nocapture` it is printed how often.

use crate::naive;
use second::block::{self, CHECK_A, CHECK_B, COUNT, LENGTH, NUMBER};
use second::cases::{self, Options};
use second::edition::{Edition, Origin};
use second::jobs;
use second::places::ZPlace;
use second::record;
use second::sizes::{self, LARGEST_K};
use second::transcript::{self, Answer, Field, Request};
use second::transform;
use std::collections::BTreeMap;

/// How often each corner was come to.
#[derive(Default)]
struct Corners(BTreeMap<String, u32>);

impl Corners {
    fn hit(&mut self, corner: String) {
        *self.0.entry(corner).or_default() += 1;
    }
}

fn small(answer: &Answer, wanted: &str) -> usize {
    let field = answer.iter().find(|(name, _)| *name == wanted);
    match field {
        Some((_, Field::Small(value))) => *value as usize,
        _ => panic!("no small field {}", wanted),
    }
}

/// The writer's faults, in the order they are judged in.
const FAULTS: [&str; 7] = ["1", "2", "5", "9 (edition)", "6", "7", "9 (names)"];

fn pairs_of(faults: &[&str]) -> Vec<String> {
    let pairs = (0..faults.len()).flat_map(|later| (0..later).map(move |first| (first, later)));
    pairs
        .map(|(first, later)| format!("writing: {} before {}", faults[first], faults[later]))
        .collect()
}

/// The faults of a display, in the order they are judged in.
const DISPLAY_FAULTS: [&str; 6] = ["1", "2", "3", "4", "5", "11"];

/// Each fault that is there with the next one.
fn neighbours_of(faults: [bool; 6]) -> Vec<String> {
    let pairs = (1..6).filter(|later| faults[later - 1] && faults[*later]);
    pairs
        .map(|later| {
            let [first, later] = [later - 1, later].map(|fault| DISPLAY_FAULTS[fault]);
            format!("display: {} before {}", first, later)
        })
        .collect()
}

/// What one that is given shows: which numbers move, if any do, and how far.
fn given_corners(unfinished: u32, place: usize, numbers: &[i32]) -> Vec<String> {
    let moves = |places: &[i32]| unfinished > 0 && places.iter().any(|number| *number != 0);
    let (before, behind) = numbers.split_at(place);
    let shown = transform::softened(numbers, unfinished, ZPlace(place));
    let mut corners = vec![format!("p {}", unfinished)];
    for (holds, corner) in [
        (moves(&behind[..1]), "the number at the place"),
        (unfinished > 1 && moves(before), "a number before the place"),
        (unfinished == 1 && moves(before), "a number that stays"),
        (sizes::check_magnitudes(&shown).is_err(), "beyond the limit"),
        (place == numbers.len() - 1, "the last place"),
    ] {
        corners.extend(holds.then(|| corner.to_string()));
    }
    corners
}

fn display_corners(request: &Request, refusal: usize) -> Vec<String> {
    let (unfinished, place, numbers) = match request {
        Request::Display {
            unfinished,
            place,
            numbers,
            ..
        } => (*unfinished, *place, numbers),
        _ => return Vec::new(),
    };
    let mut corners = neighbours_of(naive::display_conditions(request).map(|(_, holds)| holds));
    let own = match refusal {
        0 => given_corners(unfinished, place as usize, numbers),
        5 => vec![format!("p {}", unfinished)],
        11 => {
            let places = numbers.len() as u64;
            let over = match place - places {
                0 => "S²".to_string(),
                1 => "S² and 1".to_string(),
                _ => place.to_string(),
            };
            let p = if unfinished == 0 { ", p 0" } else { "" };
            vec![format!("place {}", over), format!("any place{}", p)]
        }
        _ => Vec::new(),
    };
    let told = match refusal {
        0 => "given".to_string(),
        refusal => refusal.to_string(),
    };
    let own = own.into_iter();
    corners.extend(own.map(|corner| format!("display: {}, {}", corner, told)));
    corners
}

/// What an origin comes to where all else is right: one of its values decides.
fn origin_corners(origin: Origin, told: &str) -> Vec<String> {
    let Origin {
        edition,
        arm,
        mount,
    } = origin;
    let arm_fits = [1, 2].contains(&arm);
    let mount_fits = mount < 1 << 24;
    let told = |name: &str, value: u32| format!("writing: {} {}, {}", name, value, told);
    match (edition, arm_fits, mount_fits) {
        (1, true, true) => vec![told("edition", 1)],
        (1, _, _) => vec![told("names that do not fit, edition", 1)],
        (2, true, true) => vec![told("arm", arm), told("mount", mount)],
        (2, false, true) => vec![told("arm", arm)],
        (2, true, false) => vec![told("mount", mount)],
        (_, true, true) => vec![told("edition", edition)],
        _ => Vec::new(),
    }
}

/// The room, where it is what one of the editions wants or one byte under that,
/// and they want unlike room.
fn room_corners(edition: u32, count: u64, room: usize, told: &str) -> Vec<String> {
    let wanted = |edition| record::block_count(edition, count) as usize * LENGTH;
    let [one, two] = Edition::BOTH.map(wanted);
    let rooms = [
        (one, 1, ""),
        (one - 1, 1, " less 1"),
        (two, 2, ""),
        (two - 1, 2, " less 1"),
    ];
    let rooms = rooms
        .into_iter()
        .filter(|(wanted, _, _)| one != two && *wanted == room);
    rooms
        .map(|(_, other, less)| {
            format!(
                "writing: {} in the room of {}{}, {}",
                edition, other, less, told
            )
        })
        .collect()
}

fn writing_corners(request: &Request, refusal: usize) -> Vec<String> {
    let (origin, count, room) = match request {
        Request::RecordWriting {
            origin,
            count,
            room,
            ..
        } => (*origin, *count, *room),
        _ => return Vec::new(),
    };
    let faults = FAULTS.into_iter().zip(naive::writing_conditions(request));
    let faults: Vec<&str> = faults
        .filter(|(_, (_, holds))| *holds)
        .map(|(name, _)| name)
        .collect();
    let mut corners = pairs_of(&faults);
    let told = match refusal {
        0 => "written".to_string(),
        refusal => refusal.to_string(),
    };
    if faults.iter().all(|fault| fault.starts_with('9')) {
        corners.extend(origin_corners(origin, &told));
    }
    if faults.iter().all(|fault| *fault == "6") {
        corners.extend(room_corners(origin.edition, count, room, &told));
    }
    corners
}

/// What is special about a block of edition 2 that is refused as 9 and would be
/// sound but for one field.
fn flaw(block: &[u8]) -> Option<String> {
    let stored = |block: &[u8]| [CHECK_A, CHECK_B].map(|place| block::field(block, place));
    if block.len() != LENGTH || block[0] != 2 || stored(block) != block::checks(block) {
        return None;
    }
    let sound_with = |place: usize, bytes: &[u8]| {
        let mut block = block.to_vec();
        block[place..place + bytes.len()].copy_from_slice(bytes);
        block::write_checks(&mut block);
        jobs::block_check(&block).is_ok()
    };
    let full = 3_904_u16;
    let count = block::field(block, COUNT);
    if jobs::block_check(block).is_ok() {
        None
    } else if sound_with(16, &[1]) {
        Some(format!("arm {}, 9", block[16]))
    } else if !sound_with(COUNT.start, &full.to_be_bytes()) {
        None
    } else if count > full {
        Some(format!("count {}, 9", count))
    } else {
        Some("an unused bit, 9".to_string())
    }
}

/// What a block in turn has unlike block 0.
fn unlike(block: &[u8], first: &[u8]) -> Option<String> {
    let same = |from: usize, to: usize| block[from..to] == first[from..to];
    if !same(1, 12) {
        None
    } else if !same(0, 1) {
        Some(format!("edition {} after {}, 10", block[0], first[0]))
    } else if !same(16, 17) {
        Some("another arm, 10".to_string())
    } else {
        Some("another mount, 10".to_string())
    }
}

fn reading_corners(blocks: &[u8], room: usize, answer: &Answer) -> Vec<String> {
    let blocks: Vec<&[u8]> = blocks.chunks_exact(LENGTH).collect();
    let [refusal, kept, ended] = ["refusal", "blocks", "ended"].map(|name| small(answer, name));
    let mut corners = Vec::new();
    if refusal == 6 && !blocks.is_empty() && blocks[0][0] == 2 && room >= 488 * blocks.len() {
        corners.push("room for the payloads of edition 2 alone, 6".to_string());
    }
    // Of the block that was judged last.
    match (refusal, ended) {
        (9, _) => corners.extend(flaw(blocks[0])),
        (_, 9) => corners.extend(flaw(blocks[kept])),
        (_, 10) if block::field(blocks[kept], NUMBER) as usize == kept => {
            corners.extend(unlike(blocks[kept], blocks[0]))
        }
        _ => {}
    }
    if refusal == 0 {
        let edition = small(answer, "edition");
        corners.push(format!("ended {}", ended));
        corners.push(format!("edition {}, kept", edition));
        let payload = |block: &&[u8]| block[16..20] != blocks[0][16..20];
        if edition == 1 && blocks[..kept].iter().any(payload) {
            corners.push("bytes 16 to 19 unlike, edition 1, kept".to_string());
        }
    }
    let corners = corners.into_iter();
    corners
        .map(|corner| format!("reading: {}", corner))
        .collect()
}

/// What the gate draws: all jobs, all sides, so many cases of this seed.
const SEED: u64 = 1;
const CASES: u64 = 5_000;

fn corners_of_the_gate() -> Corners {
    let options = Options {
        jobs: (1..=9).collect(),
        largest: LARGEST_K,
    };
    let mut corners = Corners::default();
    for number in 0..CASES {
        let request = cases::case(SEED, number, &options);
        let answer = transcript::answer(&request);
        let refusal = small(&answer, "refusal");
        let (job, here) = match &request {
            Request::RecordWriting { .. } => ("writing", writing_corners(&request, refusal)),
            Request::RecordReading { blocks, room, .. } => {
                ("reading", reading_corners(blocks, *room, &answer))
            }
            Request::Display { .. } => ("display", display_corners(&request, refusal)),
            Request::BlockCheck { block } => {
                let flaw = flaw(block).map(|flaw| format!("check: {}", flaw));
                ("check", flaw.into_iter().collect())
            }
            _ => continue,
        };
        corners.hit(format!("{}: {}", job, refusal));
        here.into_iter().for_each(|corner| corners.hit(corner));
    }
    corners
}

const WRITING: [&str; 27] = [
    "edition 0, 9",
    "edition 1, written",
    "edition 3, 9",
    "edition 255, 9",
    "edition 257, 9",
    "edition 258, 9",
    "edition 4294967295, 9",
    "names that do not fit, edition 1, written",
    "arm 0, 9",
    "arm 1, written",
    "arm 2, written",
    "arm 3, 9",
    "arm 255, 9",
    "arm 257, 9",
    "arm 258, 9",
    "arm 4294967295, 9",
    "mount 0, written",
    "mount 16777215, written",
    "mount 16777216, 9",
    "mount 4294967295, 9",
    "1 in the room of 1, written",
    "1 in the room of 1 less 1, 6",
    "1 in the room of 2 less 1, written",
    "2 in the room of 1, 6",
    "2 in the room of 1 less 1, 6",
    "2 in the room of 2, written",
    "2 in the room of 2 less 1, 6",
];

const READING: [&str; 12] = [
    "room for the payloads of edition 2 alone, 6",
    "edition 1, kept",
    "edition 2, kept",
    "bytes 16 to 19 unlike, edition 1, kept",
    "edition 1 after 2, 10",
    "edition 2 after 1, 10",
    "another arm, 10",
    "another mount, 10",
    "ended 0",
    "ended 8",
    "ended 9",
    "ended 10",
];

/// Besides every p from 0 to 18, which are given.
const DISPLAY: [&str; 13] = [
    "the number at the place, given",
    "a number before the place, given",
    "a number that stays, given",
    "beyond the limit, given",
    "the last place, given",
    "p 19, 5",
    "p 32, 5",
    "p 4294967295, 5",
    "place S², 11",
    "place S² and 1, 11",
    "place 18446744073709551615, 11",
    "any place, 11",
    "any place, p 0, 11",
];

/// Of blocks whose checks are right, in a record and alone.
const FLAWS: [&str; 6] = [
    "arm 0, 9",
    "arm 3, 9",
    "count 3905, 9",
    "count 3936, 9",
    "count 3937, 9",
    "an unused bit, 9",
];

#[test]
fn the_gate_comes_to_the_corners_of_both_editions_and_of_displays() {
    let gate = include_str!("../../../.ci/run");
    let draw = format!("    tools/compare --count {}\n", CASES);
    assert!(gate.contains(&draw), "the gate draws other cases");
    let compare = include_str!("../../../tools/compare");
    let seed = format!(" seed={} ", SEED);
    assert!(compare.contains(&seed), "the gate has another seed");

    let corners = corners_of_the_gate();
    for (corner, times) in &corners.0 {
        println!("{:6} {}", times, corner);
    }
    let mut expected = pairs_of(&FAULTS);
    expected.extend(neighbours_of([true; 6]));
    expected.extend((0..=18).map(|p| format!("display: p {}, given", p)));
    for (job, names) in [
        ("writing", &WRITING[..]),
        ("reading", &READING),
        ("reading", &FLAWS),
        ("check", &FLAWS),
        ("display", &DISPLAY),
    ] {
        expected.extend(names.iter().map(|name| format!("{}: {}", job, name)));
    }
    for corner in expected {
        assert!(corners.0.contains_key(&corner), "{}: never", corner);
    }
}
