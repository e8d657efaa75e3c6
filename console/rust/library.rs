//! The label library's answer to a request of a transcript: every field of the plain answer, also of a refused call. What
//! the package makes of it, a value or a refusal by name, is held to it here.

use label::{raw, Refusal};
use second::edition::Origin;
use second::transcript::{self, Answer, Field, Request};

fn small(value: u32) -> Field {
    Field::Small(value)
}

fn large(value: usize) -> Field {
    Field::Large(value as u64)
}

/// Holds the named result to the number of the plain answer.
fn named<T>(refusal: u32, result: Result<T, Refusal>) {
    assert_eq!(result.err().map_or(0, Refusal::number), refusal, "a refusal by another name");
}

/// Makes the call and gives its answer. A job's own fields come in the order of
/// the transcript.
pub fn answer(request: &Request) -> Answer {
    match request {
        Request::Forward {
            k,
            levels,
            picture,
            numbers,
        } => {
            let mut numbers = transcript::lent_numbers(*numbers);
            let given = raw::forward(*k, *levels, picture, &mut numbers);
            named(given.refusal, given.result());
            vec![
                ("refusal", small(given.refusal)),
                ("n", small(given.n)),
                ("numbers", Field::Numbers(numbers)),
            ]
        }
        Request::Coding {
            k,
            levels,
            numbers,
            limit,
            bytes,
        } => {
            let mut bytes = transcript::lent_bytes(*bytes);
            let given = raw::code(*k, *levels, numbers, *limit as usize, &mut bytes);
            named(given.refusal, given.result());
            vec![
                ("refusal", small(given.refusal)),
                ("bits", large(given.bits)),
                ("n", small(given.n)),
                ("bytes", Field::Bytes(bytes)),
            ]
        }
        Request::Decoding {
            k,
            levels,
            planes,
            numbers,
            bytes,
            count,
        } => {
            let mut numbers = transcript::lent_numbers(*numbers);
            let given = raw::decode(*k, *levels, *planes, &mut numbers, bytes, *count as usize);
            named(given.refusal, given.result());
            vec![
                ("refusal", small(given.refusal)),
                ("unfinished", small(given.unfinished)),
                ("read", large(given.read)),
                ("place", large(given.place)),
                ("numbers", Field::Numbers(numbers)),
            ]
        }
        Request::Inverse {
            k,
            levels,
            numbers,
            picture,
            room,
        } => {
            let mut picture = transcript::lent_bytes(*picture);
            let mut room = transcript::lent_numbers(*room);
            let refusal = raw::inverse(*k, *levels, numbers, &mut picture, &mut room);
            vec![
                ("refusal", small(refusal)),
                ("picture", Field::Bytes(picture)),
                ("room", Field::Numbers(room)),
            ]
        }
        Request::RecordWriting {
            k,
            levels,
            planes,
            origin,
            label,
            bytes,
            count,
            room,
        } => {
            let mut room = transcript::lent_bytes(*room);
            let Origin { edition, arm, mount } = *origin;
            let b = *count as usize;
            let given = raw::write(*k, *levels, *planes, edition, arm, mount, label, bytes, b, &mut room);
            named(given.refusal, given.result());
            vec![
                ("refusal", small(given.refusal)),
                ("blocks", small(given.blocks as u32)),
                ("room", Field::Bytes(room)),
            ]
        }
        Request::RecordReading { blocks, label, room } => {
            let mut room = transcript::lent_bytes(*room);
            let given = raw::read(blocks, label, &mut room);
            named(given.refusal, given.result());
            vec![
                ("refusal", small(given.refusal)),
                ("k", small(given.k)),
                ("L", small(given.levels)),
                ("n", small(given.n)),
                ("blocks", small(given.blocks as u32)),
                ("bits", large(given.bits)),
                ("ended", small(given.ended)),
                ("edition", small(given.edition)),
                ("arm", small(given.arm)),
                ("mount", small(given.mount)),
                ("room", Field::Bytes(room)),
            ]
        }
        Request::BlockCheck { block } => vec![("refusal", small(raw::check(block)))],
        Request::Thumbnail {
            k,
            levels,
            halvings,
            numbers,
            picture,
            room,
        } => {
            let mut picture = transcript::lent_bytes(*picture);
            let mut room = transcript::lent_numbers(*room);
            let refusal = raw::thumbnail(*k, *levels, *halvings, numbers, &mut picture, &mut room);
            vec![
                ("refusal", small(refusal)),
                ("picture", Field::Bytes(picture)),
                ("room", Field::Numbers(room)),
            ]
        }
        Request::Display {
            k,
            levels,
            unfinished,
            place,
            numbers,
            picture,
            room,
        } => {
            let mut picture = transcript::lent_bytes(*picture);
            let mut room = transcript::lent_numbers(*room);
            let place = *place as usize;
            let refusal = raw::display(*k, *levels, *unfinished, place, numbers, &mut picture, &mut room);
            vec![
                ("refusal", small(refusal)),
                ("picture", Field::Bytes(picture)),
                ("room", Field::Numbers(room)),
            ]
        }
    }
}
