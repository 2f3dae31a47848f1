//! The class of a state number in three ways, each a sum over state numbers: by the crate `measured`, which asks `words`; by a `match` of Rust's; by a
//! static table.

use crate::guests::PAGES;
use chirpsteeple_tests::random::Random;

/// The classes, numbered as `measured` sums them.
#[derive(Clone, Copy)]
enum Class {
    Free,
    NonLeaf,
    Leaf,
    Unlisted,
}

const fn class(state: u8) -> Class {
    match state {
        0 | 5 | 6 | 27 | 28 | 64 => Class::Free,
        129 | 132 | 193 | 196 => Class::NonLeaf,
        1..=4 | 8 | 9 | 11 | 12 | 16 | 17 | 19 | 20 | 24..=26 | 29..=34 | 65 | 68 | 96 | 97 => Class::Leaf,
        _ => Class::Unlisted,
    }
}

static CLASSES: [Class; 256] = {
    let mut classes = [Class::Unlisted; 256];
    let mut state = 0;
    while state < 256 {
        classes[state] = class(state as u8);
        state += 1;
    }
    classes
};

extern "C" {
    fn measured_classes(states: *const u8, length: usize) -> u64;
}

fn by_words(states: &[u8]) -> u64 {
    // SAFETY: a slice of bytes is passed as its pointer and its length, and read.
    unsafe { measured_classes(states.as_ptr(), states.len()) }
}

#[inline(never)]
fn by_match(states: &[u8]) -> u64 {
    states.iter().map(|&state| class(state) as u64).sum()
}

#[inline(never)]
fn by_table(states: &[u8]) -> u64 {
    states.iter().map(|&state| CLASSES[state as usize] as u64).sum()
}

/// The three, in the order of the table's columns.
pub const SUMS: [fn(&[u8]) -> u64; 3] = [by_words, by_match, by_table];

/// What they are given: state numbers, as many as the largest guest has pages, and the name of their kind.
pub fn kinds() -> [(&'static str, Vec<u8>); 3] {
    let of_pages = [0, 1, 2, 3, 4, 24, 25, 26, 27, 29, 30, 31];
    let all: Vec<u8> = (0..=255).collect();
    let mut random = Random::new(5);
    let mut picked = |states: &[u8]| (0..PAGES).map(|_| random.pick(states)).collect();
    [
        ("all alike", vec![4; PAGES]),
        ("mixed as a guest's pages are", picked(&of_pages)),
        ("all 256 at random", picked(&all)),
    ]
}
