//! Answers the requests of a transcript by calls of the label library, so that
//! its answers can be compared with the second program's.

mod library;

use second::transcript;
use std::io::{self, BufReader, BufWriter, Write};

fn main() -> io::Result<()> {
    let mut output = BufWriter::new(io::stdout().lock());
    for request in transcript::requests(BufReader::new(io::stdin().lock())) {
        output.write_all(&transcript::answer_bytes(&library::answer(&request?)))?;
    }
    output.flush()
}
