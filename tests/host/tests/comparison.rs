//! The library beside the implementation from document 01, with fixed seeds.

use chirpsteeple_tests::cases::{
    every_bound_of_a_restore, every_bound_of_an_export, every_bound_of_the_session, every_kind_of_record,
};
use chirpsteeple_tests::random::Random;
use host_tests::comparison::{same, Comparison, Difference};
use host_tests::damage::{every_length, every_word_of_a_session};
use host_tests::library::Library;
use host_tests::lines::play;
use host_tests::lists::lists_of_every_length;
use host_tests::run::{run, seeds, SEEDS};

fn library_same(calls: impl FnOnce(&mut Comparison) -> Result<(), Difference>) -> Vec<String> {
    same(&mut Library::default(), 10, calls)
}

fn same_on_lines(lines: &str) {
    library_same(|comparison| play(comparison, &mut Random::new(0), lines));
}

#[test]
fn random_histories_and_every_code_of_every_call_among_them() {
    println!("with {} of {SEEDS} seeds", seeds());
    let faults = library_same(|comparison| (0..seeds()).try_for_each(|seed| run(comparison, seed)));
    assert_eq!(faults, Vec::<String>::new());
}

#[test]
fn every_kind_of_record_in_every_phase() {
    same_on_lines(&every_kind_of_record());
}

#[test]
fn both_sides_of_every_bound_of_the_session() {
    same_on_lines(&every_bound_of_the_session());
}

#[test]
fn both_sides_of_every_bound_of_an_export() {
    same_on_lines(&every_bound_of_an_export());
}

#[test]
fn both_sides_of_every_bound_of_a_restore() {
    same_on_lines(&every_bound_of_a_restore());
}

#[test]
fn every_word_of_a_session_damaged() {
    library_same(every_word_of_a_session);
}

#[test]
fn slices_of_every_length_about_a_bound() {
    library_same(every_length);
}

#[test]
fn lists_of_every_length_filled_exported_and_restored() {
    library_same(lists_of_every_length);
}
