//! For bench/count. `count calls` makes each row's calls once, between two marks that are seen in the emulator's log, first those of the library, then
//! those of straightforward Rust, and prints a line for each row: how many calls each of the two made, and its name. `count classes` does so with the
//! class of state numbers, by `words`, by Rust's `match` and by its static table: how many numbers, and their kind.

use chirpsteeple_bench::classes::{kinds, SUMS};
use chirpsteeple_bench::guests::Guest;
use chirpsteeple_bench::rows::rows;
use chirpsteeple_bench::work::{keep, Answer, Meter, Work};

/// So many calls of a row are made, where it has as many: with those on one page, not every page's.
const CALLS: u64 = 16;

fn main() {
    match std::env::args().nth(1).as_deref() {
        Some("calls") => rows(&mut Counted),
        Some("classes") => classes(),
        _ => panic!("usage: count calls|classes"),
    }
}

fn classes() {
    for (kind, states) in kinds() {
        for sum in SUMS {
            chirpsteeple_mark();
            let summed = sum(&states);
            chirpsteeple_mark();
            assert_eq!(summed, SUMS[0](&states), "{kind}: sums");
        }
        println!("{}\t{kind}", states.len());
    }
}

struct Counted;

impl Meter for Counted {
    fn row<A: Answer>(
        &mut self,
        work: Work,
        (library, rust): (impl Fn(&mut Guest, u64) -> A, impl Fn(&mut Guest, u64) -> A),
    ) {
        let steps = work.steps.min(CALLS);
        let given: Vec<Guest> = work.given.into_iter().take((CALLS / steps) as usize).collect();
        let calls = given.len() as u64 * steps;
        let work = Work { given, steps, ..work };
        work.compare(&library, &rust);
        marked(&work, library);
        marked(&work, rust);
        println!("{calls}\t{}", work.name);
    }
}

fn marked<A: Answer>(work: &Work, call: impl Fn(&mut Guest, u64) -> A) {
    let mut guests = work.given.clone();
    chirpsteeple_mark();
    for guest in &mut guests {
        for step in 0..work.steps {
            keep(call(guest, step).code());
        }
    }
    chirpsteeple_mark();
}

/// Does nothing; bench/count looks for its name.
#[no_mangle]
#[inline(never)]
extern "C" fn chirpsteeple_mark() {
    keep(0);
}
