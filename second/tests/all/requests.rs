//! The cases and the transcript: every refusal appears, a refused call changes
//! nothing, and what is written is read back.

use crate::naive;
use second::cases::{self, Options};
use second::compare::{self, Outcome};
use second::edition::Origin;
use second::places::ZPlace;
use second::random::Random;
use second::samples;
use second::show;
use second::sizes;
use second::transcript::{self, lent_bytes, lent_numbers, Answer, Field, Request};
use second::transcript::{MOST_BYTES, MOST_LABEL, MOST_NUMBERS};
use second::transform;
use std::collections::{BTreeMap, BTreeSet};
use std::slice::from_ref;

fn cases_of(jobs: &[u8], largest: u32, count: u64) -> Vec<Request> {
    let options = Options {
        jobs: jobs.to_vec(),
        largest,
    };
    (0..count)
        .map(|number| cases::case(50, number, &options))
        .collect()
}

const ALL_JOBS: [u8; 9] = [1, 2, 3, 4, 5, 6, 7, 8, 9];

fn small(answer: &Answer, wanted: &str) -> u32 {
    match answer.iter().find(|(name, _)| *name == wanted) {
        Some((_, Field::Small(value))) => *value,
        _ => panic!("no small field {}", wanted),
    }
}

#[test]
fn every_refusal_of_every_job_appears_regularly() {
    let refusals: [&[u32]; 9] = [
        &[0, 1, 2, 3],
        &[0, 1, 2, 3, 4],
        &[0, 1, 2, 3, 5, 6],
        &[0, 1, 2, 3, 4],
        &[0, 1, 2, 5, 6, 7, 9],
        &[0, 6, 7, 8, 9, 10],
        &[0, 6, 8, 9],
        &[0, 1, 2, 3, 4, 13],
        &[0, 1, 2, 3, 4, 5, 11],
    ];
    for (job, expected) in ALL_JOBS.iter().zip(refusals) {
        let mut seen: BTreeMap<u32, u32> = BTreeMap::new();
        for request in cases_of(&[*job], 4, 2_000) {
            let refusal = small(&transcript::answer(&request), "refusal");
            *seen.entry(refusal).or_default() += 1;
        }
        assert_eq!(seen.keys().copied().collect::<Vec<u32>>(), expected);
        assert!(seen.values().all(|times| *times >= 20), "{:?}", seen);
    }
}

#[test]
fn every_number_that_ends_a_run_appears_regularly() {
    let mut seen: BTreeMap<u32, u32> = BTreeMap::new();
    for request in cases_of(&[6], 8, 2_000) {
        let ended = small(&transcript::answer(&request), "ended");
        *seen.entry(ended).or_default() += 1;
    }
    assert_eq!(seen.keys().copied().collect::<Vec<u32>>(), [0, 8, 9, 10]);
    assert!(seen.values().all(|times| *times >= 20), "{:?}", seen);
}

/// Thumbnails are also asked for, and given, with a number behind them that is
/// beyond the limits.
#[test]
fn numbers_that_4_does_not_judge_appear_regularly() {
    let mut unjudged = 0;
    for request in cases_of(&[8], 4, 2_000) {
        if let Request::Thumbnail { numbers, .. } = &request {
            let is_given = small(&transcript::answer(&request), "refusal") == 0;
            unjudged += u32::from(is_given && sizes::check_magnitudes(numbers).is_err());
        }
    }
    assert!(unjudged >= 20, "{}", unjudged);
}

/// Displays are asked for, and given, with every p and with moved numbers that
/// pass the limit, and where the decoder stopped within a plane.
#[test]
fn displays_of_every_kind_appear_regularly() {
    let mut planes: BTreeMap<u32, u32> = BTreeMap::new();
    let (mut beyond, mut within) = (0, 0);
    for request in cases_of(&[9], 4, 2_000) {
        if let Request::Display {
            unfinished,
            place,
            numbers,
            ..
        } = &request
        {
            if small(&transcript::answer(&request), "refusal") == 0 {
                *planes.entry(*unfinished).or_default() += 1;
                let stopped = ZPlace(*place as usize);
                let shown = transform::softened(numbers, *unfinished, stopped);
                beyond += u32::from(sizes::check_magnitudes(&shown).is_err());
                within += u32::from(*unfinished > 0 && *place > 0);
            }
        }
    }
    assert!(planes.keys().copied().eq(0..=18), "{:?}", planes);
    assert!(planes.values().all(|times| *times >= 20), "{:?}", planes);
    assert!(beyond >= 20 && within >= 200, "{} {}", beyond, within);
}

#[test]
fn every_size_appears() {
    let mut seen = BTreeMap::new();
    let mut random = Random::new(51, 0);
    for _ in 0..5_000 {
        let sizes = samples::sizes(&mut random, 8);
        *seen.entry((sizes.k(), sizes.levels())).or_insert(0) += 1;
    }
    assert_eq!(seen.len(), 24);
    assert!(seen.values().all(|times| *times >= 5), "{:?}", seen);
    assert!((0..100).all(|_| samples::sizes(&mut random, 3).k() == 3));
}

#[test]
fn every_character_appears_in_each_place_of_a_label() {
    let mut random = Random::new(52, 0);
    let mut seen = BTreeSet::new();
    let mut letters_alone = 0;
    for _ in 0..10_000 {
        let label = samples::label(&mut random);
        assert!(naive::is_label(&label), "{:?}", label);
        letters_alone += u32::from(label.iter().all(u8::is_ascii_uppercase));
        seen.extend(label.into_iter().enumerate());
    }
    assert_eq!(seen.len(), 8 * 36);
    assert!(letters_alone >= 500, "{}", letters_alone);
}

/// Wrong labels of eight bytes have one that is no character, and in each place
/// it comes to be every small letter and each of the other twelve.
#[test]
fn wrong_labels_are_no_labels() {
    let mut random = Random::new(53, 0);
    let mut seen = BTreeSet::new();
    for _ in 0..200_000 {
        let label = samples::wrong_label(&mut random);
        assert!(!naive::is_label(&label), "{:?}", label);
        if label.len() == 8 {
            let is_stranger = |byte: &u8| !byte.is_ascii_digit() && !byte.is_ascii_uppercase();
            let strangers = label.iter().enumerate();
            let strangers: Vec<_> = strangers.filter(|(_, byte)| is_stranger(byte)).collect();
            assert_eq!(strangers.len(), 1);
            seen.extend(strangers.iter().map(|(place, byte)| (*place, **byte)));
        }
    }
    assert_eq!(seen.len(), 8 * (26 + 12));
}

#[test]
fn a_refused_call_changes_nothing() {
    for request in cases_of(&ALL_JOBS, 5, 10_000) {
        let answer = transcript::answer(&request);
        if small(&answer, "refusal") == 0 {
            continue;
        }
        for (_, field) in &answer[1..] {
            match field {
                Field::Small(value) => assert_eq!(*value, 0),
                Field::Large(value) => assert_eq!(*value, 0),
                Field::Bytes(bytes) => assert_eq!(*bytes, lent_bytes(bytes.len())),
                Field::Numbers(numbers) => assert_eq!(*numbers, lent_numbers(numbers.len())),
            }
        }
    }
}

#[test]
fn lent_slices_start_as_agreed() {
    assert_eq!(lent_bytes(37)[..3], [13, 20, 27]);
    assert_eq!(lent_bytes(37)[34..], [0, 7, 14]);
    assert_eq!(lent_numbers(37)[..3], [-112, -105, -98]);
    assert_eq!(lent_numbers(37)[34..], [-125, -118, -111]);
}

#[test]
fn requests_are_read_back_as_written() {
    let requests = cases_of(&ALL_JOBS, 6, 2_000);
    let mut written = Vec::new();
    for request in &requests {
        transcript::write_request(request, &mut written).unwrap();
    }
    let read: Vec<Request> = transcript::requests(&written[..])
        .map(|request| request.unwrap())
        .collect();
    assert!(read == requests);
}

/// The bytes of one request of each kind, as the format lays them down.
#[test]
fn requests_are_written_as_laid_down() {
    let written = |request: Request| {
        let mut bytes = Vec::new();
        transcript::write_request(&request, &mut bytes).unwrap();
        bytes
    };
    let decoding = Request::Decoding {
        k: 3,
        levels: 2,
        planes: 0x0102_0304,
        numbers: 64,
        bytes: vec![0xAB, 0xCD],
        count: 9,
    };
    let laid_down = [
        3, 3, 0, 0, 0, 2, 0, 0, 0, 4, 3, 2, 1, 64, 0, 0, 0, 2, 0, 0, 0, 0xAB, 0xCD, 9, 0, 0, 0, 0,
        0, 0, 0,
    ];
    assert_eq!(written(decoding), laid_down);
    let inverse = Request::Inverse {
        k: 9,
        levels: 0,
        numbers: vec![-2],
        picture: 1,
        room: 2,
    };
    let laid_down = [
        4, 9, 0, 0, 0, 0, 0, 0, 0, 1, 0, 0, 0, 0xFE, 0xFF, 0xFF, 0xFF, 1, 0, 0, 0, 2, 0, 0, 0,
    ];
    assert_eq!(written(inverse), laid_down);
    let writing = Request::RecordWriting {
        k: 3,
        levels: 2,
        planes: 5,
        origin: Origin {
            edition: 2,
            arm: 1,
            mount: 0x0102_0304,
        },
        label: b"0417AAL6".to_vec(),
        bytes: vec![0xAB],
        count: 7,
        room: 512,
    };
    let mut laid_down = vec![5, 3, 0, 0, 0, 2, 0, 0, 0, 5, 0, 0, 0];
    laid_down.extend([2, 0, 0, 0, 1, 0, 0, 0, 4, 3, 2, 1]);
    laid_down.extend(b"\x08\0\0\x000417AAL6\x01\0\0\0\xAB");
    laid_down.extend([7, 0, 0, 0, 0, 0, 0, 0, 0, 2, 0, 0]);
    assert_eq!(written(writing), laid_down);
    let thumbnail = Request::Thumbnail {
        k: 3,
        levels: 2,
        halvings: 13,
        numbers: vec![-2],
        picture: 1,
        room: 2,
    };
    let laid_down = [
        8, 3, 0, 0, 0, 2, 0, 0, 0, 13, 0, 0, 0, 1, 0, 0, 0, 0xFE, 0xFF, 0xFF, 0xFF, 1, 0, 0, 0, 2,
        0, 0, 0,
    ];
    assert_eq!(written(thumbnail), laid_down);
    let display = Request::Display {
        k: 3,
        levels: 2,
        unfinished: 5,
        place: 0x0102_0304_0506_0708,
        numbers: vec![-2],
        picture: 1,
        room: 2,
    };
    let mut laid_down = vec![9, 3, 0, 0, 0, 2, 0, 0, 0, 5, 0, 0, 0];
    laid_down.extend([8, 7, 6, 5, 4, 3, 2, 1, 1, 0, 0, 0]);
    laid_down.extend([0xFE, 0xFF, 0xFF, 0xFF, 1, 0, 0, 0, 2, 0, 0, 0]);
    assert_eq!(written(display), laid_down);
}

#[test]
fn answers_are_as_long_as_foretold() {
    for request in cases_of(&ALL_JOBS, 5, 2_000) {
        let bytes = transcript::answer_bytes(&transcript::answer(&request));
        assert_eq!(bytes.len(), transcript::answer_length(&request));
    }
}

/// Both programs have buffers of these sizes.
#[test]
fn cases_keep_within_the_limits() {
    let mut volume = 0;
    let requests = cases_of(&ALL_JOBS, 8, 4_000);
    for request in &requests {
        let (numbers, bytes, label) = match request {
            Request::Forward {
                picture, numbers, ..
            } => (picture.len().max(*numbers), 0, 0),
            Request::Coding { numbers, bytes, .. } => (numbers.len(), *bytes, 0),
            Request::Decoding { numbers, bytes, .. } => (*numbers, bytes.len(), 0),
            Request::Inverse {
                numbers,
                picture,
                room,
                ..
            }
            | Request::Thumbnail {
                numbers,
                picture,
                room,
                ..
            }
            | Request::Display {
                numbers,
                picture,
                room,
                ..
            } => (numbers.len().max(*picture).max(*room), 0, 0),
            Request::RecordWriting {
                label, bytes, room, ..
            } => (0, bytes.len().max(*room), label.len()),
            Request::RecordReading {
                blocks,
                label,
                room,
            } => (0, blocks.len().max(*room), label.len()),
            Request::BlockCheck { block } => (0, block.len(), 0),
        };
        assert!(numbers <= MOST_NUMBERS && bytes <= MOST_BYTES && label <= MOST_LABEL);
        let mut written = Vec::new();
        transcript::write_request(request, &mut written).unwrap();
        volume += written.len() + transcript::answer_length(request);
    }
    let average = volume / requests.len();
    assert!((8_000..20_000).contains(&average), "{}", average);
}

fn answers(requests: &[Request]) -> Vec<u8> {
    let answers = requests.iter().map(transcript::answer);
    answers
        .flat_map(|answer| transcript::answer_bytes(&answer))
        .collect()
}

fn compared(requests: &[Request], a: &[u8], b: &[u8]) -> Outcome {
    compare::compare(a, b, requests.iter().cloned().map(Ok)).unwrap()
}

/// A changed byte anywhere is found, in its case and field.
#[test]
fn a_difference_is_found_and_named() {
    let requests = cases_of(&ALL_JOBS, 3, 40);
    let right = answers(&requests);
    assert_eq!(
        compared(&requests, &right, &right),
        Outcome::Same { cases: 40 }
    );
    let mut case = 0;
    let mut start = 0;
    for (place, byte) in right.iter().enumerate() {
        while place >= start + transcript::answer_length(&requests[case]) {
            start += transcript::answer_length(&requests[case]);
            case += 1;
        }
        if place % 97 != 0 {
            continue;
        }
        let mut wrong = right.clone();
        wrong[place] ^= 1;
        match compared(&requests, &right, &wrong) {
            Outcome::Different { report } => {
                let line = show::line(&requests[case]);
                assert!(report.starts_with(&format!("case {}: {}\n", case, line)));
                assert!(!report.contains("after the last field"), "{}", report);
            }
            same => panic!("byte {} {} went unnoticed: {:?}", place, byte, same),
        }
    }
}

#[test]
fn a_difference_is_said_in_the_fields_own_numbers() {
    let request = Request::Forward {
        k: 3,
        levels: 2,
        picture: vec![128; 64],
        numbers: 64,
    };
    let right = answers(from_ref(&request));
    let report = |place: usize, byte: u8| {
        let mut wrong = right.clone();
        wrong[place] = byte;
        match compared(from_ref(&request), &right, &wrong) {
            Outcome::Different { report } => report.lines().last().unwrap().trim().to_string(),
            Outcome::Same { .. } => panic!("the difference went unnoticed"),
        }
    };
    assert_eq!(report(4, 7), "n: 0 against 7");
    assert_eq!(
        report(8 + 4 * 5 + 3, 0x80),
        "numbers[5]: 0 against -2147483648"
    );
}

/// P3 cut to 9 bits: the place is shown, and another in its stead is named.
#[test]
fn another_place_is_seen() {
    let request = Request::Decoding {
        k: 3,
        levels: 2,
        planes: 3,
        numbers: 64,
        bytes: vec![0xC0, 0x08],
        count: 9,
    };
    let line = show::line(&request);
    assert!(line.ends_with("=> refusal 0, unfinished 2, bits read 9, place 2"));
    let right = answers(from_ref(&request));
    let mut wrong = right.clone();
    wrong[16] = 1;
    let report = format!("case 0: {}\n  place: 2 against 1", line);
    let different = Outcome::Different { report };
    assert_eq!(compared(from_ref(&request), &right, &wrong), different);
}

#[test]
fn files_that_end_early_or_late_differ() {
    let requests = cases_of(&ALL_JOBS, 3, 5);
    let right = answers(&requests);
    let early = &right[..right.len() - 1];
    let mut late = right.clone();
    late.push(0);
    for (a, b) in [
        (early, &right[..]),
        (&right, early),
        (&late, &right),
        (&right, &late),
    ] {
        let outcome = compared(&requests, a, b);
        assert!(matches!(outcome, Outcome::Different { .. }));
    }
}
