//! Two benches side by side, call by call.

use crate::calls::{Bench, Call, FromDocument, Lent};
use crate::reached::Reached;
use chirpsteeple_tests::bench::Answer;
use chirpsteeple_tests::host::bytes;
use chirpsteeple_tests::met::Met;
use std::fmt;

/// Compares a bench on the calls that `calls` makes, and panics where it differs. Says what was met, and answers what was met less than `times` times.
pub fn same(
    bench: &mut dyn Bench,
    times: usize,
    calls: impl FnOnce(&mut Comparison) -> Result<(), Difference>,
) -> Vec<String> {
    let mut comparison = Comparison::new(bench);
    if let Err(difference) = calls(&mut comparison) {
        panic!("{difference}");
    }
    println!("{}", comparison.report());
    comparison.faults(times)
}

pub struct Comparison<'a> {
    compared: &'a mut dyn Bench,
    /// What the calls follow from; it is told with a difference, and not used.
    seed: u64,
    /// Calls under this seed.
    number: usize,
    met: Met,
    pub reached: Reached,
}

impl<'a> Comparison<'a> {
    pub fn new(compared: &'a mut dyn Bench) -> Self {
        Comparison { compared, seed: 0, number: 0, met: Met::default(), reached: Reached::default() }
    }

    /// From here on the calls follow from this seed, and are counted from 1.
    pub fn under(&mut self, seed: u64) {
        (self.seed, self.number) = (seed, 0);
    }

    /// The calls so far, what they answered, and how deep they went.
    pub fn report(&self) -> String {
        format!("{} calls without a difference\n{}\n{}", self.met.calls(), self.met.table(), self.reached.table())
    }

    /// What was met less than `times` times, and what was met and cannot be.
    pub fn faults(&self, times: usize) -> Vec<String> {
        [self.met.faults(times), self.reached.faults(times)].concat()
    }

    /// Makes the call on both benches, and leaves what document 01 leaves.
    pub fn call(&mut self, call: Call, lent: &mut Lent) -> Result<Answer, Difference> {
        self.number += 1;
        let before = lent.clone();
        let mut other = lent.clone();
        let answer = FromDocument.call(call, lent);
        let found = self.compared.call(call, &mut other);
        self.met.call(call.word, &answer);
        if let Some(list) = bytes::words(&lent.list) {
            self.met.entries(call.word, &call.numbers, &answer, &list);
        }
        self.reached.call(call, &before, &answer);
        let differing = differing([&before, lent, &other], &answer, &found);
        if differing.is_empty() {
            return Ok(answer);
        }
        let heading = format!("seed {}, call {}: {call}\n", self.seed, self.number);
        Err(Difference(heading + &description(&before) + &differing.concat()))
    }
}

/// A call of which the two benches made different things, told so that it can be seen without running it again.
pub struct Difference(String);

impl fmt::Display for Difference {
    fn fmt(&self, f: &mut fmt::Formatter) -> fmt::Result {
        f.write_str(&self.0)
    }
}

/// The lengths of what was lent, and the session's words.
fn description(lent: &Lent) -> String {
    let lengths: Vec<String> =
        lent.slices().iter().map(|(name, bytes)| format!("{name} of {} bytes", bytes.len())).collect();
    let session: Vec<String> = lent.session.chunks(bytes::WORD).map(|word| format!("{:x}", number(word))).collect();
    format!("  lent: {}\n  session before, by words: {}\n", lengths.join(", "), session.join(" "))
}

/// A line for the answer if the two differ in it, and for each slice in which they differ, at the first such word. What is lent stands as it was before, as it should be after, and as it was found.
fn differing(lent: [&Lent; 3], answer: &Answer, other: &Answer) -> Vec<String> {
    let mut lines = Vec::new();
    if answer != other {
        lines.push(format!("  answer: found    {other:?}\n          expected {answer:?}\n"));
    }
    for index in 0..4 {
        let [(name, before), (_, expected), (_, found)] = lent.map(|lent| lent.slices()[index]);
        if expected != found {
            lines.push(first_differing(name, [before, expected, found]));
        }
    }
    lines
}

fn first_differing(name: &str, slices: [&[u8]; 3]) -> String {
    let [before, expected, found] = slices.map(|bytes| bytes.chunks(bytes::WORD).map(number).collect::<Vec<u64>>());
    let index = (0..expected.len()).find(|&index| expected[index] != found[index]).unwrap();
    let [before, expected, found] = [before[index], expected[index], found[index]];
    format!("  {name}: word {index} was {before:#x}, found {found:#x}, expected {expected:#x}\n")
}

/// The number in the bytes of a word, or in what there is of one.
fn number(bytes: &[u8]) -> u64 {
    bytes.iter().rev().fold(0, |number, &byte| number << 8 | byte as u64)
}
