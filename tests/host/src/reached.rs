//! How deep the histories went: places that a comparison must have been at often to be worth much.

use crate::calls::{Call, Lent};
use chirpsteeple_tests::bench::codes::{DONE, MALFORMED};
use chirpsteeple_tests::bench::lists::part;
use chirpsteeple_tests::bench::session::{Phase, Stream};
use chirpsteeple_tests::bench::{Answer, LAST_EPOCH, MOST_ENTRIES, MOST_WORDS};
use chirpsteeple_tests::host::bytes;

const PLACES: [&str; 11] = [
    "migrations brought to the token by a driver",
    "tokens granted",
    "calls in Done",
    "calls done with several streams interrupted",
    "exports that ended after interruptions",
    "restores that went on behind the first entry",
    "calls done at TLB epoch 65,535",
    "calls done at migration epoch 65,535",
    "calls done on 4,096 pages",
    "scans and calls by list done with 512 entries",
    "lists and buffers not in whole words",
];

#[derive(Default)]
pub struct Reached([usize; PLACES.len()]);

impl Reached {
    /// A driver's migration that came to its end.
    pub fn migration(&mut self) {
        self.0[0] += 1;
    }

    /// A call on what was lent before it, and its answer.
    pub fn call(&mut self, call: Call, lent: &Lent, answer: &Answer) {
        let session = match bytes::session(&lent.session) {
            Some(session) if !session.malformed() => session,
            _ => return,
        };
        let done = answer.code < MALFORMED;
        let interrupted = session.streams.iter().filter(|&&stream| stream != Stream::AtRest).count();
        let lists = matches!(call.word, "dscan" | "dcheck" | "export" | "restore");
        let resumed = call.word == "export" && call.numbers[1] == 1;
        let went_on = call.word == "restore" && part(call.numbers[0]).0 > 0;
        let places = [
            false,
            call.word == "token" && answer.code == DONE,
            session.phase == Phase::Done,
            done && interrupted > 1,
            resumed && answer.code == DONE,
            went_on && answer.code == DONE,
            done && session.tlb == LAST_EPOCH,
            done && session.epoch == LAST_EPOCH,
            done && lent.table.len() == MOST_WORDS * bytes::WORD,
            done && lists && lent.list.len() == MOST_ENTRIES * bytes::WORD,
            lists && [&lent.list, &lent.buffer].iter().any(|lent| lent.len() % bytes::WORD != 0),
        ];
        self.0.iter_mut().zip(places).for_each(|(times, at)| *times += at as usize);
    }

    /// The places that were not reached at least `times` times.
    pub fn faults(&self, times: usize) -> Vec<String> {
        let rare = PLACES.iter().zip(self.0).filter(|(_, reached)| *reached < times);
        rare.map(|(place, reached)| format!("{place}: {reached}")).collect()
    }

    pub fn table(&self) -> String {
        let lines: Vec<String> =
            PLACES.iter().zip(self.0).map(|(place, times)| format!("{place:45} {times:>8}")).collect();
        lines.join("\n")
    }
}
