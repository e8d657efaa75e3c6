//! All tests of the second program that go through its public face.

mod by_hand;
mod corners;
mod cut_place;
mod demands;
mod editions;
mod formulations;
mod naive;
mod old_slip;
mod program;
mod records;
mod requests;
mod slips;
mod softer;
mod steps;
mod thumbnails;
