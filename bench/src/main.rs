//! Measures the library and straightforward Rust side by side, and prints a line for each operation: its name, the library's nanoseconds, Rust's. Then
//! the class of state numbers of each kind: the kind, and the nanoseconds a number of `words`, of Rust's `match` and of its static table.

use chirpsteeple_bench::classes::{kinds, SUMS};
use chirpsteeple_bench::guests::Guest;
use chirpsteeple_bench::rows::rows;
use chirpsteeple_bench::work::{keep, Answer, Meter, Work};
use std::time::{Duration, Instant};

// What is linked behind this comes 16 bytes later: bench/run says what for.
#[cfg(feature = "shifted")]
std::arch::global_asm!(".section .text.shift, \"axR\", @progbits", ".skip 16", ".text");

/// So long is each operation measured in a round.
const TURN: Duration = Duration::from_millis(20);

fn main() {
    rows(&mut Times);
    for (kind, states) in kinds() {
        let sum = SUMS[0](&states);
        let nanoseconds = quickest(|| {
            SUMS.map(|side| {
                let begun = Instant::now();
                let summed = side(&states);
                let time = begun.elapsed();
                assert_eq!(summed, sum, "{kind}: sums");
                time
            })
        })
        .map(|time| time.as_nanos() as f64 / states.len() as f64);
        println!("{kind}\t{:.2}\t{:.2}\t{:.2}", nanoseconds[0], nanoseconds[1], nanoseconds[2]);
    }
}

/// The quickest time of each side, over samples that have a time of each.
fn quickest<const SIDES: usize>(mut sample: impl FnMut() -> [Duration; SIDES]) -> [Duration; SIDES] {
    let mut quickest = [Duration::MAX; SIDES];
    let begun = Instant::now();
    while begun.elapsed() < TURN {
        let times = sample();
        quickest = std::array::from_fn(|side| times[side].min(quickest[side]));
    }
    quickest
}

/// Times of the library and of straightforward Rust on the same guests, in turns.
struct Times;

impl Meter for Times {
    /// Compares the two, the bytes again after each of many samples, and prints the nanoseconds of either's quickest.
    fn row<A: Answer>(
        &mut self,
        work: Work,
        (library, rust): (impl Fn(&mut Guest, u64) -> A, impl Fn(&mut Guest, u64) -> A),
    ) {
        work.compare(&library, &rust);
        let (mut ours, mut theirs) = (work.given.clone(), work.given.clone());
        let calls = (work.given.len() as u64 * work.steps) as f64;
        let [library, rust] = quickest(|| {
            let times = [sample(&work, &mut ours, &library), sample(&work, &mut theirs, &rust)];
            assert!(ours == theirs, "{}: bytes", work.name);
            times
        })
        .map(|time| time.as_nanos() as f64 / calls);
        println!("{}\t{library:.1}\t{rust:.1}", work.name);
    }
}

/// The time of all calls once, on guests as they were given.
fn sample<A: Answer>(work: &Work, guests: &mut [Guest], call: &impl Fn(&mut Guest, u64) -> A) -> Duration {
    for (guest, given) in guests.iter_mut().zip(&work.given) {
        guest.copy_from(given);
    }
    let begun = Instant::now();
    for guest in guests {
        for step in 0..work.steps {
            keep(call(guest, step).code());
        }
    }
    begun.elapsed()
}
