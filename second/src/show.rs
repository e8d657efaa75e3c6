//! One readable line per request: its job, its sizes, and what is special
//! about it.

use crate::block::{self, LENGTH};
use crate::edition::Origin;
use crate::jobs;
use crate::sizes::{self, Sizes};
use crate::transcript::{self, Field, Request};

/// S², if k and L are in their ranges.
fn places(k: u32, levels: u32) -> Option<usize> {
    Sizes::new(k, levels).ok().map(Sizes::places)
}

/// (S/2^r)², if r is in its range too.
fn halved(k: u32, levels: u32, halvings: u32) -> Option<usize> {
    let sizes = Sizes::new(k, levels).ok()?;
    sizes.check_halvings(halvings).ok()?;
    Some(sizes.halved_places(halvings))
}

/// A slice's length, with the right one where it is another.
fn length(name: &str, length: usize, right: Option<usize>) -> String {
    match right {
        Some(right) if right != length => format!("{} {} (not {})", name, length, right),
        _ => format!("{} {}", name, length),
    }
}

fn greys(picture: &[u8]) -> String {
    match (picture.iter().min(), picture.iter().max()) {
        (Some(least), Some(most)) if least == most => format!("all greys {}", least),
        (Some(least), Some(most)) => format!("greys {} to {}", least, most),
        _ => "no greys".to_string(),
    }
}

fn magnitudes(numbers: &[i32]) -> String {
    let set = numbers.iter().filter(|number| **number != 0).count();
    let least = numbers.iter().min().copied().unwrap_or(0);
    let most = numbers.iter().max().copied().unwrap_or(0);
    let beyond = numbers
        .iter()
        .position(|number| sizes::check_magnitudes(&[*number]).is_err());
    let beyond = beyond.map_or(String::new(), |place| {
        format!(", place {} is {}", place, numbers[place])
    });
    format!("{} not zero, {} to {}{}", set, least, most, beyond)
}

fn label_text(label: &[u8]) -> String {
    format!("label \"{}\"", label.escape_ascii())
}

fn origin_text(origin: Origin) -> String {
    let Origin {
        edition,
        arm,
        mount,
    } = origin;
    format!("edition {} arm {} mount {}", edition, arm, mount)
}

/// A block as its own fields and the single-block check say.
fn block_text(block: &[u8]) -> String {
    let [k, levels, planes] = block::sizes_field(block);
    let judged = jobs::block_check(block).map_or_else(|refusal| refusal.number(), |()| 0);
    format!(
        "{} number {} k {} L {} n {} {} bits {} check {}",
        origin_text(Origin::of(block)),
        block::field(block, block::NUMBER),
        k,
        levels,
        planes,
        label_text(&block[block::LABEL]),
        block::field(block, block::COUNT),
        judged
    )
}

/// The whole blocks one by one, as far as a line has room for.
fn blocks_text(blocks: &[u8]) -> String {
    const SHOWN: usize = 8;
    let whole = blocks.chunks_exact(LENGTH);
    let tail = whole.remainder().len();
    let more = whole.len().saturating_sub(SHOWN);
    let mut parts: Vec<String> = whole.take(SHOWN).map(block_text).collect();
    if more > 0 {
        parts.push(format!("{} more blocks", more));
    }
    if tail > 0 {
        parts.push(format!("a tail of {} bytes", tail));
    }
    format!("{} bytes: {}", blocks.len(), parts.join("; "))
}

fn given(request: &Request) -> String {
    match request {
        Request::Forward {
            k,
            levels,
            picture,
            numbers,
        } => {
            let places = places(*k, *levels);
            format!(
                "forward k {} L {}, {}, {}, {}",
                k,
                levels,
                length("picture", picture.len(), places),
                greys(picture),
                length("numbers", *numbers, places)
            )
        }
        Request::Coding {
            k,
            levels,
            numbers,
            limit,
            bytes,
        } => {
            let places = places(*k, *levels);
            format!(
                "coding k {} L {}, {}, {}, limit {}, bytes {}",
                k,
                levels,
                length("numbers", numbers.len(), places),
                magnitudes(numbers),
                limit,
                bytes
            )
        }
        Request::Decoding {
            k,
            levels,
            planes,
            numbers,
            bytes,
            count,
        } => {
            let places = places(*k, *levels);
            format!(
                "decoding k {} L {} n {}, {}, b {} of bytes {}",
                k,
                levels,
                planes,
                length("numbers", *numbers, places),
                count,
                bytes.len()
            )
        }
        Request::Inverse {
            k,
            levels,
            numbers,
            picture,
            room,
        } => {
            let places = places(*k, *levels);
            format!(
                "inverse k {} L {}, {}, {}, {}, {}",
                k,
                levels,
                length("numbers", numbers.len(), places),
                magnitudes(numbers),
                length("picture", *picture, places),
                length("room", *room, places)
            )
        }
        Request::RecordWriting {
            k,
            levels,
            planes,
            origin,
            label,
            bytes,
            count,
            room,
        } => format!(
            "record writing k {} L {} n {}, {}, {}, b {} of bytes {}, room {}",
            k,
            levels,
            planes,
            origin_text(*origin),
            label_text(label),
            count,
            bytes.len(),
            room
        ),
        Request::RecordReading {
            blocks,
            label,
            room,
        } => format!(
            "record reading {}, room {}, {}",
            label_text(label),
            room,
            blocks_text(blocks)
        ),
        Request::BlockCheck { block } if block.len() == LENGTH => {
            format!("block check, {}", block_text(block))
        }
        Request::BlockCheck { block } => format!("block check, {} bytes", block.len()),
        Request::Thumbnail {
            k,
            levels,
            halvings,
            numbers,
            picture,
            room,
        } => {
            let greys = halved(*k, *levels, *halvings);
            format!(
                "thumbnail k {} L {} r {}, {}, {}, {}, {}",
                k,
                levels,
                halvings,
                length("numbers", numbers.len(), places(*k, *levels)),
                magnitudes(numbers),
                length("picture", *picture, greys),
                length("room", *room, greys)
            )
        }
        Request::Display {
            k,
            levels,
            unfinished,
            place,
            numbers,
            picture,
            room,
        } => {
            let places = places(*k, *levels);
            format!(
                "display k {} L {} p {} place {}, {}, {}, {}, {}",
                k,
                levels,
                unfinished,
                place,
                length("numbers", numbers.len(), places),
                magnitudes(numbers),
                length("picture", *picture, places),
                length("room", *room, places)
            )
        }
    }
}

/// The request, and what the second program answers besides lent slices.
pub fn line(request: &Request) -> String {
    let answer = transcript::answer(request);
    let values = answer.iter().filter_map(|(name, field)| match field {
        Field::Small(value) => Some(format!("{} {}", name, value)),
        Field::Large(value) => Some(format!("{} {}", name, value)),
        Field::Bytes(_) | Field::Numbers(_) => None,
    });
    let values: Vec<String> = values.collect();
    format!("{} => {}", given(request), values.join(", "))
}
