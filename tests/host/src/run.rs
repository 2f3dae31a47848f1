//! What follows from one seed: a random scenario, some migrations, and some sessions and tables from nowhere.

use crate::comparison::{Comparison, Difference};
use crate::driver::migration;
use crate::handed::handed;
use crate::lines::play;
use chirpsteeple_tests::histories::random_scenario;
use chirpsteeple_tests::random::Random;

/// As many seeds meet all that can be met.
pub const SEEDS: u64 = 200;

/// As many do so too, less often: where the library runs under an emulator, which `.ci/x86-64` tells, time is short.
const SEEDS_EMULATED: u64 = 30;

/// How many seeds the tests run with.
pub fn seeds() -> u64 {
    match std::env::var_os("CHIRPSTEEPLE_EMULATED") {
        Some(_) => SEEDS_EMULATED,
        None => SEEDS,
    }
}

/// A part of so many, as the seeds are: for a right bench in the place of a wrong one.
pub fn part_of(all: u64) -> u64 {
    all * seeds() / SEEDS
}

const LINES: usize = 2_000;
const MIGRATIONS: usize = 6;
const HANDED: usize = 90;

pub fn run(comparison: &mut Comparison, seed: u64) -> Result<(), Difference> {
    comparison.under(seed);
    let random = &mut Random::new(seed);
    play(comparison, random, &random_scenario(seed, LINES))?;
    (0..MIGRATIONS).try_for_each(|_| migration(comparison, random))?;
    (0..HANDED).try_for_each(|_| handed(comparison, random))
}
