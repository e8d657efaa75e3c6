//! The second program as a command: it makes cases, answers them, shows them,
//! and compares two files of answers. For the demo it also looks at a record
//! as a viewer with the old slip does.

#![forbid(unsafe_code)]

use second::cases::{self, Options};
use second::compare::{self, Outcome};
use second::refusal::Refusal;
use second::show;
use second::sizes::{LARGEST_K, SMALLEST_K};
use second::slip;
use second::transcript;
use std::error::Error;
use std::fs::{self, File};
use std::io::{self, BufReader, BufWriter, Write};
use std::process::ExitCode;
use std::str::FromStr;

const USAGE: &str = "usage:
  second cases --seed S --count N [--first I] [--jobs 1,4] [--largest K]
  second answer
  second show [--case I]
  second compare FILE_A FILE_B --requests FILE
  second slip LAST_RECORD RECORD
cases writes requests to standard output; answer and show read them from
standard input. Cases are counted from 0. slip is for the demo, and wrong on
purpose: it writes the PGM that a viewer shows of RECORD when it leaves the
numbers of LAST_RECORD in place wherever RECORD has settled nothing.";

type Failure = Box<dyn Error>;

/// The words after the subcommand: options with a value, and the rest.
struct Words {
    options: Vec<(String, String)>,
    rest: Vec<String>,
}

impl Words {
    fn new(known: &[&str], mut words: impl Iterator<Item = String>) -> Result<Words, Failure> {
        let (mut options, mut rest) = (Vec::new(), Vec::new());
        while let Some(word) = words.next() {
            if known.contains(&word.as_str()) {
                let value = words.next();
                let value = value.ok_or_else(|| format!("{} needs a value", word))?;
                options.push((word, value));
            } else if word.starts_with("--") {
                return Err(format!("unknown option {}", word).into());
            } else {
                rest.push(word);
            }
        }
        Ok(Words { options, rest })
    }

    fn option(&self, name: &str) -> Option<&str> {
        let mut named = self.options.iter().filter(|(option, _)| option == name);
        named.next().map(|(_, value)| value.as_str())
    }

    fn needed(&self, name: &str) -> Result<&str, Failure> {
        let value = self.option(name);
        value.ok_or_else(|| format!("{} is needed", name).into())
    }

    /// The words that are no options, if they are as many as wanted.
    fn rest<const N: usize>(&self) -> Result<[&str; N], Failure> {
        let words: Vec<&str> = self.rest.iter().map(String::as_str).collect();
        let given = words.len();
        let words = words.try_into();
        words.map_err(|_| format!("{} words given, {} wanted", given, N).into())
    }
}

fn number<T: FromStr>(text: &str) -> Result<T, Failure> {
    let number = text.parse();
    number.map_err(|_| format!("{} is not a number that fits", text).into())
}

fn make_cases(words: &Words) -> Result<ExitCode, Failure> {
    let [] = words.rest()?;
    let seed = number(words.needed("--seed")?)?;
    let count: u64 = number(words.needed("--count")?)?;
    let first: u64 = number(words.option("--first").unwrap_or("0"))?;
    let jobs = words.option("--jobs").unwrap_or("1,2,3,4,5,6,7,8,9");
    let jobs = jobs
        .split(',')
        .map(number)
        .collect::<Result<Vec<u8>, _>>()?;
    let largest = words.option("--largest").map_or(Ok(LARGEST_K), number)?;
    if jobs.iter().any(|job| !(1..=9).contains(job)) {
        return Err("the jobs are 1 to 9".into());
    }
    if !(SMALLEST_K..=LARGEST_K).contains(&largest) {
        return Err("the largest k is one of 3 to 8".into());
    }
    let options = Options { jobs, largest };
    let mut output = BufWriter::new(io::stdout().lock());
    for case in (first..).take(usize::try_from(count)?) {
        transcript::write_request(&cases::case(seed, case, &options), &mut output)?;
    }
    output.flush()?;
    Ok(ExitCode::SUCCESS)
}

fn answer(words: &Words) -> Result<ExitCode, Failure> {
    let [] = words.rest()?;
    let mut output = BufWriter::new(io::stdout().lock());
    for request in transcript::requests(BufReader::new(io::stdin().lock())) {
        let answer = transcript::answer(&request?);
        output.write_all(&transcript::answer_bytes(&answer))?;
    }
    output.flush()?;
    Ok(ExitCode::SUCCESS)
}

fn show(words: &Words) -> Result<ExitCode, Failure> {
    let [] = words.rest()?;
    let only: Option<usize> = words.option("--case").map(number).transpose()?;
    let mut output = BufWriter::new(io::stdout().lock());
    let requests = transcript::requests(BufReader::new(io::stdin().lock()));
    for (case, request) in requests.enumerate() {
        let request = request?;
        if only.map_or(true, |only| only == case) {
            writeln!(output, "case {}: {}", case, show::line(&request))?;
        }
    }
    output.flush()?;
    Ok(ExitCode::SUCCESS)
}

fn open(name: &str) -> Result<BufReader<File>, Failure> {
    let file = File::open(name).map_err(|error| format!("{}: {}", name, error))?;
    Ok(BufReader::new(file))
}

fn compare(words: &Words) -> Result<ExitCode, Failure> {
    let [a, b] = words.rest()?;
    let requests = transcript::requests(open(words.needed("--requests")?)?);
    match compare::compare(open(a)?, open(b)?, requests)? {
        Outcome::Same { cases } => {
            println!("{} cases, no difference", cases);
            Ok(ExitCode::SUCCESS)
        }
        Outcome::Different { report } => {
            println!("{}", report);
            Ok(ExitCode::from(1))
        }
    }
}

/// For the demo: what a viewer with the old slip shows.
fn slip(words: &Words) -> Result<ExitCode, Failure> {
    let held = |name: &str| -> Result<slip::Held, Failure> {
        let record = fs::read(name).map_err(|error| format!("{}: {}", name, error))?;
        let refused = |refusal: Refusal| format!("{}: refused by {}", name, refusal.number());
        Ok(slip::seen(&record).map_err(refused)?)
    };
    let [last, next] = words.rest()?;
    let (last, next) = (held(last)?, held(next)?);
    let shown = slip::look(&last, &next).ok_or("the records differ in side or levels")?;
    let pgm = shown.pgm();
    let pgm = pgm.map_err(|refusal| format!("refused by {}", refusal.number()))?;
    io::stdout().write_all(&pgm)?;
    Ok(ExitCode::SUCCESS)
}

fn run() -> Result<ExitCode, Failure> {
    let mut words = std::env::args().skip(1);
    match words.next().as_deref() {
        Some("cases") => {
            let known = ["--seed", "--count", "--first", "--jobs", "--largest"];
            make_cases(&Words::new(&known, words)?)
        }
        Some("answer") => answer(&Words::new(&[], words)?),
        Some("show") => show(&Words::new(&["--case"], words)?),
        Some("compare") => compare(&Words::new(&["--requests"], words)?),
        Some("slip") => slip(&Words::new(&[], words)?),
        Some("--help") => {
            println!("{}", USAGE);
            Ok(ExitCode::SUCCESS)
        }
        _ => Err(USAGE.into()),
    }
}

fn main() -> ExitCode {
    run().unwrap_or_else(|failure| {
        eprintln!("{}", failure);
        ExitCode::from(2)
    })
}
