//! The three ways to sum classes give what the independent implementation has for each number.

use chirpsteeple_bench::classes::{kinds, SUMS};
use chirpsteeple_tests::words;

fn number(state: u8) -> u64 {
    ["free", "non-leaf", "leaf", "unlisted"].iter().position(|&class| class == words::class(state.into())).unwrap()
        as u64
}

#[test]
fn every_number_alone() {
    for state in 0..=255 {
        assert_eq!(SUMS.map(|sum| sum(&[state])), [number(state); 3], "{state}");
    }
}

#[test]
fn what_is_measured_and_every_length() {
    for (kind, states) in kinds() {
        for length in (0..20).chain([states.len()]) {
            let states = &states[..length];
            let expected: u64 = states.iter().map(|&state| number(state)).sum();
            assert_eq!(SUMS.map(|sum| sum(states)), [expected; 3], "{kind}, {length} numbers");
        }
    }
}
