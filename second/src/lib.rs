//! The second program: the label-picture codec written from the paper alone,
//! so that the first program has something independent to be compared with.

#![forbid(unsafe_code)]

pub mod bits;
pub mod block;
pub mod cases;
pub mod compare;
pub mod damage;
pub mod edition;
pub mod jobs;
pub mod places;
pub mod random;
pub mod record;
pub mod refusal;
pub mod samples;
pub mod show;
pub mod sizes;
pub mod slip;
pub mod transcript;
pub mod transform;
pub mod walk;
