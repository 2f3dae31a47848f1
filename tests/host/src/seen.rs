//! What the histories went through: without it that demand 3 stood would say little.

use crate::calls::Call;
use crate::watcher::{refused, Entry, Watcher};
use chirpsteeple_tests::bench::codes::INTERRUPTED;
use chirpsteeple_tests::bench::lists::operation::{CANCEL, REMIGRATE};
use chirpsteeple_tests::bench::Answer;

const KINDS: [&str; 14] = [
    "tokens granted",
    "tokens granted after an abort",
    "tokens granted after a restore",
    "tokens granted after a write before the restore",
    "tokens granted after several epochs",
    "CANCELs replayed at a token",
    "REMIGRATEs replayed at a token",
    "unseen writes in a migration with a token",
    "exports interrupted in a migration with a token",
    "exports interrupted",
    "exports resumed",
    "starts after an abort",
    "starts after a restore",
    "New in Live or Blackout",
];

#[derive(Default)]
pub struct Seen {
    times: [usize; KINDS.len()],
    calls: usize,
}

impl Seen {
    /// A call, its answer, and what the watcher kept before it.
    pub fn call(&mut self, call: Call, answer: &Answer, watcher: &Watcher) {
        self.calls += 1;
        if refused(answer) {
            return;
        }
        let is = |word| (call.word == word) as usize;
        let log: &[Entry] = if call.word == "token" { &watcher.log } else { &[] };
        let several = log.first().map(|entry| entry.epoch) != log.last().map(|entry| entry.epoch);
        let entries = |operation| log.iter().filter(|entry| entry.operation == operation).count();
        let times = [
            is("token"),
            is("token") * watcher.aborted as usize,
            is("token") * watcher.restored as usize,
            is("token") * (watcher.written && watcher.restored) as usize,
            several as usize,
            entries(CANCEL),
            entries(REMIGRATE),
            is("token") * watcher.unseen,
            is("token") * watcher.interrupted,
            is("export") * (answer.code == INTERRUPTED) as usize,
            is("export") * (call.numbers[1] == 1) as usize,
            is("start") * watcher.aborted as usize,
            is("start") * watcher.restored as usize,
            is("new") * watcher.migrating as usize,
        ];
        self.times.iter_mut().zip(times).for_each(|(all, more)| *all += more);
    }

    /// What was seen less than `times` times.
    pub fn faults(&self, times: usize) -> Vec<String> {
        let rare = KINDS.iter().zip(self.times).filter(|(_, seen)| *seen < times);
        rare.map(|(kind, seen)| format!("{kind}: {seen}")).collect()
    }

    pub fn table(&self) -> String {
        let lines = KINDS.iter().zip(self.times).map(|(kind, times)| format!("\n{kind:50} {times:>8}"));
        format!("{} calls{}", self.calls, lines.collect::<String>())
    }
}
