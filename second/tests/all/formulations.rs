//! The program against the second formulation in these tests, on random
//! requests of every job.

use crate::naive;
use second::block;
use second::cases::{self, Options};
use second::transcript;

/// Compares so many cases of one job.
fn compare(job: u8, largest: u32, count: u64) {
    let options = Options {
        jobs: vec![job],
        largest,
    };
    for number in 0..count {
        let request = cases::case(40, number, &options);
        assert!(
            transcript::answer(&request) == naive::answer(&request),
            "job {}, largest {}, case {}",
            job,
            largest,
            number
        );
    }
}

/// Many cases of small sides, fewer of all sides.
fn compare_both(job: u8) {
    compare(job, 5, 3_000);
    compare(job, 8, 300);
}

#[test]
fn forward_agrees() {
    compare_both(1);
}

#[test]
fn coding_agrees() {
    compare_both(2);
}

#[test]
fn decoding_agrees() {
    compare_both(3);
}

#[test]
fn inverse_agrees() {
    compare_both(4);
}

#[test]
fn record_writing_agrees() {
    compare_both(5);
}

#[test]
fn record_reading_agrees() {
    compare_both(6);
}

#[test]
fn block_check_agrees() {
    compare_both(7);
}

#[test]
fn thumbnail_agrees() {
    compare_both(8);
}

#[test]
fn display_agrees() {
    compare_both(9);
}

#[test]
fn labels_agree_at_every_byte_in_each_place() {
    for place in 0..8 {
        for byte in 0..=255 {
            let mut label = *b"0417AAL6";
            label[place] = byte;
            let wanted = naive::is_label(&label);
            assert_eq!(block::is_label(&label), wanted, "{:?}", label);
        }
    }
}
