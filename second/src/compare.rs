//! Comparison of two files of answers, request by request, up to the first
//! difference.

use crate::show;
use crate::transcript::{self, Field, Request};
use std::io::{self, Read};

/// What a comparison comes to.
#[derive(Debug, PartialEq, Eq)]
pub enum Outcome {
    Same { cases: u64 },
    Different { report: String },
}

/// As many bytes as asked for, or fewer where the input ends.
fn read_up_to(input: &mut impl Read, length: usize) -> io::Result<Vec<u8>> {
    let mut bytes = Vec::new();
    input.take(length as u64).read_to_end(&mut bytes)?;
    Ok(bytes)
}

/// Names the field that holds the byte at `offset` of an answer, and says what
/// each side has there.
fn describe(request: &Request, offset: usize, sides: [&[u8]; 2]) -> String {
    let mut start = 0;
    for (name, field) in transcript::answer(request) {
        let (width, count) = match &field {
            Field::Small(_) => (4, 1),
            Field::Large(_) => (8, 1),
            Field::Bytes(bytes) => (1, bytes.len()),
            Field::Numbers(numbers) => (4, numbers.len()),
        };
        if offset < start + width * count {
            let element = (offset - start) / width;
            let from = start + element * width;
            let [a, b] = sides.map(|side| value(&field, &side[from..from + width]));
            let place = match field {
                Field::Small(_) | Field::Large(_) => String::new(),
                Field::Bytes(_) | Field::Numbers(_) => format!("[{}]", element),
            };
            return format!("{}{}: {} against {}", name, place, a, b);
        }
        start += width * count;
    }
    format!("byte {}, after the last field", offset)
}

/// One element as its field reads it.
fn value(field: &Field, bytes: &[u8]) -> i128 {
    let little_endian = bytes.iter().rev();
    let unsigned = little_endian.fold(0, |value, byte| value << 8 | i128::from(*byte));
    match field {
        Field::Numbers(_) => i128::from(unsigned as u32 as i32),
        _ => unsigned,
    }
}

/// The first difference between two answers to one request, if any.
fn difference(request: &Request, a: &[u8], b: &[u8]) -> Option<String> {
    let wanted = transcript::answer_length(request);
    for (name, given) in [("first", a.len()), ("second", b.len())] {
        if given < wanted {
            return Some(format!(
                "the {} file ends after {} of {} bytes",
                name, given, wanted
            ));
        }
    }
    let offset = a.iter().zip(b).position(|(a, b)| a != b)?;
    Some(describe(request, offset, [a, b]))
}

/// Compares two inputs of answers to the same requests.
pub fn compare(
    mut a: impl Read,
    mut b: impl Read,
    requests: impl Iterator<Item = io::Result<Request>>,
) -> io::Result<Outcome> {
    let mut cases = 0;
    for request in requests {
        let request = request?;
        let length = transcript::answer_length(&request);
        let (a, b) = (read_up_to(&mut a, length)?, read_up_to(&mut b, length)?);
        if let Some(difference) = difference(&request, &a, &b) {
            let line = show::line(&request);
            let report = format!("case {}: {}\n  {}", cases, line, difference);
            return Ok(Outcome::Different { report });
        }
        cases += 1;
    }
    for (name, rest) in [
        ("first", read_up_to(&mut a, 1)?),
        ("second", read_up_to(&mut b, 1)?),
    ] {
        if !rest.is_empty() {
            let report = format!("the {} file goes on after case {}", name, cases);
            return Ok(Outcome::Different { report });
        }
    }
    Ok(Outcome::Same { cases })
}
