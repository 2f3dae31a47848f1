//! The straightforward Rust in the library's place: it does all that document 01 asks, every refusal among it.

use chirpsteeple_bench::straightforward;
use chirpsteeple_tests::bench::Answer;
use host_tests::calls::{Bench, Call, Lent};
use host_tests::comparison::same;
use host_tests::damage::{every_length, every_word_of_a_session};
use host_tests::lists::lists_of_every_length;
use host_tests::made_by;
use host_tests::run::run;

/// So many that every code of every call is met.
const SEEDS: u64 = 20;

struct Straightforward;

impl Bench for Straightforward {
    fn call(&mut self, call: Call, lent: &mut Lent) -> Answer {
        made_by!(straightforward, call, lent.slices_mut())
    }
}

#[test]
fn random_histories_and_every_code_of_every_call_among_them() {
    let faults = same(&mut Straightforward, 1, |comparison| (0..SEEDS).try_for_each(|seed| run(comparison, seed)));
    assert_eq!(faults, Vec::<String>::new());
}

#[test]
fn every_word_of_a_session_damaged() {
    same(&mut Straightforward, 0, every_word_of_a_session);
}

#[test]
fn slices_of_every_length_about_a_bound() {
    same(&mut Straightforward, 0, every_length);
}

#[test]
fn lists_of_every_length_filled_exported_and_restored() {
    same(&mut Straightforward, 0, lists_of_every_length);
}
