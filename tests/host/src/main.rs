//! `compare SEED COUNT`: compares the library with document 01 on what follows from COUNT seeds, from SEED on.

use host_tests::comparison::Comparison;
use host_tests::library::Library;
use host_tests::run::{run, SEEDS};
use std::process::exit;

fn main() {
    let numbers: Result<Vec<u64>, _> = std::env::args().skip(1).map(|word| word.parse()).collect();
    let (seed, count) = match numbers.as_deref() {
        Ok(&[seed, count]) if count > 0 => (seed, count),
        _ => {
            eprintln!("usage: compare SEED COUNT, two numbers: the first seed, and how many seeds from it on, at least 1");
            exit(2);
        }
    };
    let library = &mut Library::default();
    let mut comparison = Comparison::new(library);
    for seed in (0..count).map(|index| seed.wrapping_add(index)) {
        if let Err(difference) = run(&mut comparison, seed) {
            println!("{difference}");
            exit(1);
        }
    }
    println!("{}", comparison.report());
    comparison.faults(1).iter().for_each(|fault| println!("{fault}"));
    if count < SEEDS {
        println!("with fewer than {SEEDS} seeds, what was not met is no fault");
    }
    let times = if count < SEEDS { 0 } else { 1 };
    exit(!comparison.faults(times).is_empty() as i32);
}
