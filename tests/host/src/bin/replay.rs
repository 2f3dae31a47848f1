//! `replay SEED COUNT`: demand 3 on the library, over the histories that follow from COUNT seeds, from SEED on.

use host_tests::guests::{history, SEEDS};
use host_tests::library::Library;
use host_tests::play::Play;
use std::process::exit;

fn main() {
    let numbers: Result<Vec<u64>, _> = std::env::args().skip(1).map(|word| word.parse()).collect();
    let (seed, count) = match numbers.as_deref() {
        Ok(&[seed, count]) if count > 0 => (seed, count),
        _ => {
            eprintln!("usage: replay SEED COUNT: the first seed, and how many seeds from it on, at least 1");
            exit(2);
        }
    };
    let library = &mut Library::default();
    let mut play = Play::new(library);
    for seed in (0..count).map(|index| seed.wrapping_add(index)) {
        if let Err(broken) = history(&mut play, seed, true) {
            println!("{broken}");
            exit(1);
        }
    }
    println!("{}", play.report());
    play.seen.faults(1).iter().for_each(|fault| println!("{fault}"));
    let times = if count < SEEDS { 0 } else { 1 };
    exit(!play.seen.faults(times).is_empty() as i32);
}
