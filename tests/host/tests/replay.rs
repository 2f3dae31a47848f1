//! Demand 3 on the library: what a token promises, over random histories that a watcher follows, and that the token can be earned.

use host_tests::earn::MOST_LISTS;
use host_tests::guests::{history, SEEDS};
use host_tests::large::{last_epochs, most_pages};
use host_tests::library::Library;
use host_tests::play::{Broken, Play};

/// Plays on the library, and panics where the demand is broken.
fn stands(library: &mut Library, plays: impl FnOnce(&mut Play) -> Result<(), Broken>) -> Play<'_> {
    let mut play = Play::new(library);
    if let Err(broken) = plays(&mut play) {
        panic!("{broken}");
    }
    println!("{}", play.report());
    play
}

#[test]
fn at_every_token_the_replayed_log_gives_what_was_paused() {
    let library = &mut Library::default();
    let play = stands(library, |play| (0..SEEDS).try_for_each(|seed| history(play, seed, false)));
    assert_eq!(play.seen.faults(100), Vec::<String>::new());
}

#[test]
fn from_paused_states_the_token_is_earned() {
    let library = &mut Library::default();
    let seeds = SEEDS..SEEDS + SEEDS / 2;
    let play = stands(library, |play| seeds.clone().try_for_each(|seed| history(play, seed, true)));
    for lists in 0..4 {
        assert!(play.earned[&lists] >= 100, "with {lists} lists: {:?}", play.earned);
    }
}

#[test]
fn with_4096_pages_eight_lists_are_enough() {
    let library = &mut Library::default();
    let play = stands(library, |play| (0..3).try_for_each(|seed| most_pages(play, seed)));
    assert!(play.earned.contains_key(&MOST_LISTS), "{:?}", play.earned);
}

#[test]
fn the_last_epoch_is_enough() {
    stands(&mut Library::default(), last_epochs);
}
