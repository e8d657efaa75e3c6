//! The program as a command: its subcommands and its exit status.

use std::fs;
use std::io::Write;
use std::path::PathBuf;
use std::process::{Command, Output, Stdio};

fn second(words: &[&str], input: &[u8]) -> Output {
    let mut program = Command::new(env!("CARGO_BIN_EXE_second"))
        .args(words)
        .stdin(Stdio::piped())
        .stdout(Stdio::piped())
        .stderr(Stdio::piped())
        .spawn()
        .unwrap();
    let mut stdin = program.stdin.take().unwrap();
    let input = input.to_vec();
    // Written beside, since the program answers while it reads.
    let writer = std::thread::spawn(move || {
        // A program that refuses its words reads nothing.
        let _ = stdin.write_all(&input);
    });
    let output = program.wait_with_output().unwrap();
    writer.join().unwrap();
    output
}

/// What the program prints when all goes well.
fn printed(words: &[&str], input: &[u8]) -> Vec<u8> {
    let output = second(words, input);
    assert_eq!(output.status.code(), Some(0), "{:?}", output.stderr);
    output.stdout
}

fn file(name: &str, content: &[u8]) -> PathBuf {
    let path = PathBuf::from(env!("CARGO_TARGET_TMPDIR")).join(name);
    fs::write(&path, content).unwrap();
    path
}

#[test]
fn cases_are_made_answered_shown_and_compared() {
    let words = ["cases", "--seed", "7", "--count", "300", "--largest", "4"];
    let requests = printed(&words, &[]);
    assert_eq!(requests, printed(&words, &[]));

    let shown = String::from_utf8(printed(&["show"], &requests)).unwrap();
    let lines: Vec<&str> = shown.lines().collect();
    assert_eq!(lines.len(), 300);
    let only = String::from_utf8(printed(&["show", "--case", "123"], &requests)).unwrap();
    assert_eq!(only.lines().collect::<Vec<&str>>(), [lines[123]]);

    let answers = printed(&["answer"], &requests);
    let mut wrong = answers.clone();
    let last = wrong.len() - 1;
    wrong[last] ^= 1;
    let requests = file("requests", &requests);
    let right = file("right", &answers);
    let wrong = file("wrong", &wrong);
    let compare = |other: &PathBuf| {
        let files = [&right, other, &requests].map(|path| path.to_str().unwrap());
        second(
            &["compare", files[0], files[1], "--requests", files[2]],
            &[],
        )
    };
    let same = compare(&right);
    assert_eq!(same.stdout, b"300 cases, no difference\n");
    assert_eq!(same.status.code(), Some(0));
    let different = compare(&wrong);
    let report = String::from_utf8(different.stdout).unwrap();
    assert!(report.starts_with(lines[299]), "{}", report);
    assert_eq!(different.status.code(), Some(1));
}

#[test]
fn a_case_can_be_had_again_by_its_number() {
    let options = ["--seed", "9", "--jobs", "1,6", "--largest", "3"];
    let many = |first: &str, count: &str| {
        let words = ["cases", "--first", first, "--count", count];
        printed(&[&words[..], &options[..]].concat(), &[])
    };
    let together = many("5", "4");
    let apart = ["5", "6", "7", "8"].map(|first| many(first, "1"));
    assert_eq!(together, apart.concat());
}

/// P9's block: a flat picture, after which nothing is left in place.
#[test]
fn slip_writes_a_picture() {
    let mut block = vec![1, 3, 2, 0];
    block.extend(b"00000417");
    block.resize(512, 0);
    block[508..].copy_from_slice(&[0x01, 0x92, 0x0D, 0x54]);
    let path = file("flat", &block);
    let path = path.to_str().unwrap();
    let picture = printed(&["slip", path, path], &[]);
    assert!(picture.starts_with(b"P5\n# WRONG ON PURPOSE"));
    assert_eq!(picture[picture.len() - 64..], [128; 64]);

    let damaged = file("damaged", &block[1..]);
    let output = second(&["slip", path, damaged.to_str().unwrap()], &[]);
    assert_eq!(output.status.code(), Some(2));
    assert!(String::from_utf8(output.stderr)
        .unwrap()
        .ends_with("refused by 6\n"));
}

#[test]
fn help_is_no_misuse() {
    let usage = String::from_utf8(printed(&["--help"], &[])).unwrap();
    assert!(usage.starts_with("usage:\n"));
    assert!(usage.lines().all(|line| line.len() <= 80));
}

#[test]
fn the_version_is_the_projects() {
    assert_eq!(
        include_str!("../../../VERSION").trim(),
        env!("CARGO_PKG_VERSION")
    );
}

#[test]
fn bad_words_and_bad_input_end_with_status_2() {
    let bad: [&[&str]; 10] = [
        &[],
        &["encode"],
        &["cases", "--seed", "1"],
        &["cases", "--seed", "x", "--count", "1"],
        &["cases", "--seed", "1", "--count", "1", "--jobs", "10"],
        &["cases", "--seed", "1", "--count", "1", "--largest", "9"],
        &["compare", "one", "--requests", "none"],
        &["answer", "--fast"],
        &["slip", "one"],
        &["slip", "no such file", "no such file"],
    ];
    for words in bad {
        assert_eq!(second(words, &[]).status.code(), Some(2), "{:?}", words);
    }
    let malformed: [&[u8]; 4] = [&[0], &[10], &[7, 1, 0, 0], &[7, 0xFF, 0xFF, 0xFF, 0xFF]];
    for input in malformed {
        assert_eq!(second(&["answer"], input).status.code(), Some(2));
    }
    assert_eq!(printed(&["answer"], &[]), b"");
}
