//! The transcript: requests and answers as bytes, so that two programs can be
//! given the same calls and their answers be compared.

use crate::edition::Origin;
use crate::jobs;
use crate::refusal::Refusal;
use std::io::{self, ErrorKind, Read, Write};

/// The most elements of a picture or of a list of numbers.
pub const MOST_NUMBERS: usize = 70_000;
/// The most elements of any other list of bytes.
pub const MOST_BYTES: usize = 270_000;
pub const MOST_LABEL: usize = 64;

/// One call: what is lent for reading by its content, what is lent for writing
/// by its length.
#[derive(Clone, Debug, PartialEq, Eq)]
pub enum Request {
    Forward {
        k: u32,
        levels: u32,
        picture: Vec<u8>,
        numbers: usize,
    },
    Coding {
        k: u32,
        levels: u32,
        numbers: Vec<i32>,
        limit: u64,
        bytes: usize,
    },
    Decoding {
        k: u32,
        levels: u32,
        planes: u32,
        numbers: usize,
        bytes: Vec<u8>,
        count: u64,
    },
    Inverse {
        k: u32,
        levels: u32,
        numbers: Vec<i32>,
        picture: usize,
        room: usize,
    },
    RecordWriting {
        k: u32,
        levels: u32,
        planes: u32,
        origin: Origin,
        label: Vec<u8>,
        bytes: Vec<u8>,
        count: u64,
        room: usize,
    },
    RecordReading {
        blocks: Vec<u8>,
        label: Vec<u8>,
        room: usize,
    },
    BlockCheck {
        block: Vec<u8>,
    },
    Thumbnail {
        k: u32,
        levels: u32,
        halvings: u32,
        numbers: Vec<i32>,
        picture: usize,
        room: usize,
    },
    Display {
        k: u32,
        levels: u32,
        unfinished: u32,
        place: u64,
        numbers: Vec<i32>,
        picture: usize,
        room: usize,
    },
}

/// One value of an answer.
#[derive(Clone, Debug, PartialEq, Eq)]
pub enum Field {
    Small(u32),
    Large(u64),
    Bytes(Vec<u8>),
    Numbers(Vec<i32>),
}

/// The fields of an answer with their names, in the order they are written.
pub type Answer = Vec<(&'static str, Field)>;

/// What byte i of a lent slice holds before the call.
fn lent_byte(i: usize) -> u8 {
    ((i * 7 + 13) % 251) as u8
}

pub fn lent_bytes(length: usize) -> Vec<u8> {
    (0..length).map(lent_byte).collect()
}

pub fn lent_numbers(length: usize) -> Vec<i32> {
    (0..length).map(|i| i32::from(lent_byte(i)) - 125).collect()
}

/// A refusal number with 0 for all else, or 0 with what the job gives.
fn outcome<T: Default>(result: Result<T, Refusal>) -> (Field, T) {
    match result {
        Ok(given) => (Field::Small(0), given),
        Err(refusal) => (Field::Small(refusal.number()), T::default()),
    }
}

/// Makes the call and gives its answer.
pub fn answer(request: &Request) -> Answer {
    match request {
        Request::Forward {
            k,
            levels,
            picture,
            numbers,
        } => {
            let mut numbers = lent_numbers(*numbers);
            let (refusal, planes) = outcome(jobs::forward(*k, *levels, picture, &mut numbers));
            vec![
                ("refusal", refusal),
                ("n", Field::Small(planes)),
                ("numbers", Field::Numbers(numbers)),
            ]
        }
        Request::Coding {
            k,
            levels,
            numbers,
            limit,
            bytes,
        } => {
            let mut bytes = lent_bytes(*bytes);
            let (refusal, coded) = outcome(jobs::coding(*k, *levels, numbers, *limit, &mut bytes));
            vec![
                ("refusal", refusal),
                ("bits", Field::Large(coded.bits)),
                ("n", Field::Small(coded.planes)),
                ("bytes", Field::Bytes(bytes)),
            ]
        }
        Request::Decoding {
            k,
            levels,
            planes,
            numbers,
            bytes,
            count,
        } => {
            let mut numbers = lent_numbers(*numbers);
            let (refusal, decoded) = outcome(jobs::decoding(
                *k,
                *levels,
                *planes,
                &mut numbers,
                bytes,
                *count,
            ));
            vec![
                ("refusal", refusal),
                ("unfinished", Field::Small(decoded.unfinished)),
                ("bits read", Field::Large(decoded.bits_read)),
                ("place", Field::Large(decoded.place.0 as u64)),
                ("numbers", Field::Numbers(numbers)),
            ]
        }
        Request::Inverse {
            k,
            levels,
            numbers,
            picture,
            room,
        } => {
            let mut picture = lent_bytes(*picture);
            let mut room = lent_numbers(*room);
            let (refusal, ()) =
                outcome(jobs::inverse(*k, *levels, numbers, &mut picture, &mut room));
            vec![
                ("refusal", refusal),
                ("picture", Field::Bytes(picture)),
                ("room", Field::Numbers(room)),
            ]
        }
        Request::RecordWriting {
            k,
            levels,
            planes,
            origin,
            label,
            bytes,
            count,
            room,
        } => {
            let mut room = lent_bytes(*room);
            let (refusal, blocks) = outcome(jobs::record_writing(
                *k, *levels, *planes, *origin, label, bytes, *count, &mut room,
            ));
            vec![
                ("refusal", refusal),
                ("blocks", Field::Small(blocks)),
                ("room", Field::Bytes(room)),
            ]
        }
        Request::RecordReading {
            blocks,
            label,
            room,
        } => {
            let mut room = lent_bytes(*room);
            let (refusal, kept) = outcome(jobs::record_reading(blocks, label, &mut room));
            vec![
                ("refusal", refusal),
                ("k", Field::Small(kept.k)),
                ("L", Field::Small(kept.levels)),
                ("n", Field::Small(kept.planes)),
                ("blocks", Field::Small(kept.blocks)),
                ("bits", Field::Large(kept.bits)),
                ("ended", Field::Small(kept.ended)),
                ("edition", Field::Small(kept.origin.edition)),
                ("arm", Field::Small(kept.origin.arm)),
                ("mount", Field::Small(kept.origin.mount)),
                ("room", Field::Bytes(room)),
            ]
        }
        Request::BlockCheck { block } => {
            let (refusal, ()) = outcome(jobs::block_check(block));
            vec![("refusal", refusal)]
        }
        Request::Thumbnail {
            k,
            levels,
            halvings,
            numbers,
            picture,
            room,
        } => {
            let mut picture = lent_bytes(*picture);
            let mut room = lent_numbers(*room);
            let (refusal, ()) = outcome(jobs::thumbnail(
                *k,
                *levels,
                *halvings,
                numbers,
                &mut picture,
                &mut room,
            ));
            vec![
                ("refusal", refusal),
                ("picture", Field::Bytes(picture)),
                ("room", Field::Numbers(room)),
            ]
        }
        Request::Display {
            k,
            levels,
            unfinished,
            place,
            numbers,
            picture,
            room,
        } => {
            let mut picture = lent_bytes(*picture);
            let mut room = lent_numbers(*room);
            let (refusal, ()) = outcome(jobs::display(
                *k,
                *levels,
                *unfinished,
                *place,
                numbers,
                &mut picture,
                &mut room,
            ));
            vec![
                ("refusal", refusal),
                ("picture", Field::Bytes(picture)),
                ("room", Field::Numbers(room)),
            ]
        }
    }
}

/// The bytes of the answer to a request, known without making the call.
pub fn answer_length(request: &Request) -> usize {
    match request {
        Request::Forward { numbers, .. } => 8 + 4 * numbers,
        Request::Coding { bytes, .. } => 16 + bytes,
        Request::Decoding { numbers, .. } => 24 + 4 * numbers,
        Request::Inverse { picture, room, .. }
        | Request::Thumbnail { picture, room, .. }
        | Request::Display { picture, room, .. } => 4 + picture + 4 * room,
        Request::RecordWriting { room, .. } => 8 + room,
        Request::RecordReading { room, .. } => 44 + room,
        Request::BlockCheck { .. } => 4,
    }
}

/// Bytes under construction, little-endian.
#[derive(Default)]
struct Output(Vec<u8>);

impl Output {
    fn job(number: u8) -> Output {
        Output(vec![number])
    }

    fn small(mut self, value: u32) -> Output {
        self.0.extend(value.to_le_bytes());
        self
    }

    fn large(mut self, value: u64) -> Output {
        self.0.extend(value.to_le_bytes());
        self
    }

    fn bytes(mut self, bytes: &[u8]) -> Output {
        self.0.extend(bytes);
        self
    }

    fn numbers(mut self, numbers: &[i32]) -> Output {
        self.0
            .extend(numbers.iter().flat_map(|number| number.to_le_bytes()));
        self
    }

    /// Every length of a transcript is far below 2^32.
    fn length(self, length: usize) -> Output {
        self.small(length as u32)
    }

    fn list_of_bytes(self, bytes: &[u8]) -> Output {
        self.length(bytes.len()).bytes(bytes)
    }

    fn list_of_numbers(self, numbers: &[i32]) -> Output {
        self.length(numbers.len()).numbers(numbers)
    }
}

/// An answer as bytes.
pub fn answer_bytes(answer: &Answer) -> Vec<u8> {
    let fields = answer.iter().map(|(_, field)| field);
    let written = fields.fold(Output::default(), |output, field| match field {
        Field::Small(value) => output.small(*value),
        Field::Large(value) => output.large(*value),
        Field::Bytes(bytes) => output.bytes(bytes),
        Field::Numbers(numbers) => output.numbers(numbers),
    });
    written.0
}

pub fn write_request(request: &Request, output: &mut impl Write) -> io::Result<()> {
    let written = match request {
        Request::Forward {
            k,
            levels,
            picture,
            numbers,
        } => Output::job(1)
            .small(*k)
            .small(*levels)
            .list_of_bytes(picture)
            .length(*numbers),
        Request::Coding {
            k,
            levels,
            numbers,
            limit,
            bytes,
        } => Output::job(2)
            .small(*k)
            .small(*levels)
            .list_of_numbers(numbers)
            .large(*limit)
            .length(*bytes),
        Request::Decoding {
            k,
            levels,
            planes,
            numbers,
            bytes,
            count,
        } => Output::job(3)
            .small(*k)
            .small(*levels)
            .small(*planes)
            .length(*numbers)
            .list_of_bytes(bytes)
            .large(*count),
        Request::Inverse {
            k,
            levels,
            numbers,
            picture,
            room,
        } => Output::job(4)
            .small(*k)
            .small(*levels)
            .list_of_numbers(numbers)
            .length(*picture)
            .length(*room),
        Request::RecordWriting {
            k,
            levels,
            planes,
            origin,
            label,
            bytes,
            count,
            room,
        } => Output::job(5)
            .small(*k)
            .small(*levels)
            .small(*planes)
            .small(origin.edition)
            .small(origin.arm)
            .small(origin.mount)
            .list_of_bytes(label)
            .list_of_bytes(bytes)
            .large(*count)
            .length(*room),
        Request::RecordReading {
            blocks,
            label,
            room,
        } => Output::job(6)
            .list_of_bytes(blocks)
            .list_of_bytes(label)
            .length(*room),
        Request::BlockCheck { block } => Output::job(7).list_of_bytes(block),
        Request::Thumbnail {
            k,
            levels,
            halvings,
            numbers,
            picture,
            room,
        } => Output::job(8)
            .small(*k)
            .small(*levels)
            .small(*halvings)
            .list_of_numbers(numbers)
            .length(*picture)
            .length(*room),
        Request::Display {
            k,
            levels,
            unfinished,
            place,
            numbers,
            picture,
            room,
        } => Output::job(9)
            .small(*k)
            .small(*levels)
            .small(*unfinished)
            .large(*place)
            .list_of_numbers(numbers)
            .length(*picture)
            .length(*room),
    };
    output.write_all(&written.0)
}

fn malformed(what: String) -> io::Error {
    io::Error::new(ErrorKind::InvalidData, what)
}

/// Reads the parts of a request.
struct Input<'a, R> {
    input: &'a mut R,
}

impl<R: Read> Input<'_, R> {
    fn array<const N: usize>(&mut self) -> io::Result<[u8; N]> {
        let mut bytes = [0; N];
        self.input.read_exact(&mut bytes)?;
        Ok(bytes)
    }

    /// The job's number, or none at the end of the input.
    fn job(&mut self) -> io::Result<Option<u8>> {
        match self.array() {
            Ok([job]) => Ok(Some(job)),
            Err(error) if error.kind() == ErrorKind::UnexpectedEof => Ok(None),
            Err(error) => Err(error),
        }
    }

    fn small(&mut self) -> io::Result<u32> {
        Ok(u32::from_le_bytes(self.array()?))
    }

    fn large(&mut self) -> io::Result<u64> {
        Ok(u64::from_le_bytes(self.array()?))
    }

    fn length(&mut self, most: usize) -> io::Result<usize> {
        let length = self.small()? as usize;
        if length > most {
            return Err(malformed(format!("length {} above {}", length, most)));
        }
        Ok(length)
    }

    fn bytes(&mut self, length: usize) -> io::Result<Vec<u8>> {
        let mut bytes = vec![0; length];
        self.input.read_exact(&mut bytes)?;
        Ok(bytes)
    }

    fn list_of_bytes(&mut self, most: usize) -> io::Result<Vec<u8>> {
        let length = self.length(most)?;
        self.bytes(length)
    }

    fn list_of_numbers(&mut self) -> io::Result<Vec<i32>> {
        let length = self.length(MOST_NUMBERS)?;
        let bytes = self.bytes(4 * length)?;
        let words = bytes.chunks_exact(4);
        Ok(words
            .map(|word| i32::from_le_bytes([word[0], word[1], word[2], word[3]]))
            .collect())
    }
}

/// The next request, or none at the end of the input. The fields of each
/// struct are read in the order written here, which is the transcript's.
pub fn read_request(input: &mut impl Read) -> io::Result<Option<Request>> {
    let mut input = Input { input };
    let job = match input.job()? {
        Some(job) => job,
        None => return Ok(None),
    };
    let request = match job {
        1 => Request::Forward {
            k: input.small()?,
            levels: input.small()?,
            picture: input.list_of_bytes(MOST_NUMBERS)?,
            numbers: input.length(MOST_NUMBERS)?,
        },
        2 => Request::Coding {
            k: input.small()?,
            levels: input.small()?,
            numbers: input.list_of_numbers()?,
            limit: input.large()?,
            bytes: input.length(MOST_BYTES)?,
        },
        3 => Request::Decoding {
            k: input.small()?,
            levels: input.small()?,
            planes: input.small()?,
            numbers: input.length(MOST_NUMBERS)?,
            bytes: input.list_of_bytes(MOST_BYTES)?,
            count: input.large()?,
        },
        4 => Request::Inverse {
            k: input.small()?,
            levels: input.small()?,
            numbers: input.list_of_numbers()?,
            picture: input.length(MOST_NUMBERS)?,
            room: input.length(MOST_NUMBERS)?,
        },
        5 => Request::RecordWriting {
            k: input.small()?,
            levels: input.small()?,
            planes: input.small()?,
            origin: Origin {
                edition: input.small()?,
                arm: input.small()?,
                mount: input.small()?,
            },
            label: input.list_of_bytes(MOST_LABEL)?,
            bytes: input.list_of_bytes(MOST_BYTES)?,
            count: input.large()?,
            room: input.length(MOST_BYTES)?,
        },
        6 => Request::RecordReading {
            blocks: input.list_of_bytes(MOST_BYTES)?,
            label: input.list_of_bytes(MOST_LABEL)?,
            room: input.length(MOST_BYTES)?,
        },
        7 => Request::BlockCheck {
            block: input.list_of_bytes(MOST_BYTES)?,
        },
        8 => Request::Thumbnail {
            k: input.small()?,
            levels: input.small()?,
            halvings: input.small()?,
            numbers: input.list_of_numbers()?,
            picture: input.length(MOST_NUMBERS)?,
            room: input.length(MOST_NUMBERS)?,
        },
        9 => Request::Display {
            k: input.small()?,
            levels: input.small()?,
            unfinished: input.small()?,
            place: input.large()?,
            numbers: input.list_of_numbers()?,
            picture: input.length(MOST_NUMBERS)?,
            room: input.length(MOST_NUMBERS)?,
        },
        other => return Err(malformed(format!("no job has the number {}", other))),
    };
    Ok(Some(request))
}

/// The requests of an input, one after another, until its end or an error.
pub fn requests<R: Read>(mut input: R) -> impl Iterator<Item = io::Result<Request>> {
    std::iter::from_fn(move || read_request(&mut input).transpose())
}
