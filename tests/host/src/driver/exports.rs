//! A driver's lists: what a scan wrote is exported, in pieces and on several streams at once.

use super::Driver;
use crate::comparison::Difference;
use crate::strays::put;
use chirpsteeple_tests::bench::codes::{INTERRUPTED, LIST_FULL};
use chirpsteeple_tests::bench::session::{Phase, Session, Stream};
use chirpsteeple_tests::bench::{Answer, MOST_ENTRIES};
use chirpsteeple_tests::histories::any::entry;
use chirpsteeple_tests::host::bytes::WORD;
use chirpsteeple_tests::random::Random;
use chirpsteeple_tests::words::INFO;

/// An export that was interrupted: the info word to go on with, and its list and buffer.
pub(super) struct Running {
    info: u64,
    list: Box<[u8]>,
    buffer: Box<[u8]>,
}

/// The part of a call's work that a driver asks for at once.
pub(super) fn budget(random: &mut Random, whole: u64) -> u64 {
    match random.below(8) {
        0 => random.below(4),
        1 | 2 => random.below(whole + 2),
        3 => random.near(whole),
        _ => u64::MAX,
    }
}

impl Driver<'_, '_> {
    /// Scans to the end mostly, and exports what each list holds.
    pub(super) fn round(&mut self) -> Result<(), Difference> {
        let mut next = 0;
        loop {
            self.lend_a_list();
            let budget = budget(self.random, self.pages);
            let live = self.session().phase == Phase::Live;
            let answer = match live {
                true => self.call("dscan", &[next, self.pages - next, budget])?,
                false => self.call("dcheck", &[budget])?,
            };
            if live && !self.random.one_in(6) {
                self.call("track", &[])?;
            }
            if live && self.random.one_in(6) {
                self.guest()?;
            }
            self.export_listed(answer)?;
            // With no room and with no budget a scan stays where it is.
            let tired = self.random.one_in(if answer.next == next { 3 } else { 12 });
            next = answer.next;
            if tired || !matches!(answer.code, INTERRUPTED | LIST_FULL) {
                return Ok(());
            }
        }
    }

    /// Whatever was left in list and buffer stays there where it is not reached.
    fn lend_a_list(&mut self) {
        let most = MOST_ENTRIES as u64;
        let length = match self.random.below(4) {
            0 => 1 + self.random.below(most),
            1 => self.random.pick(&[0, 1, 2, 255, 256, 257, 511]),
            _ => self.pages.min(most),
        };
        let random = &mut *self.random;
        let mut any = || (0..length as usize * WORD).map(|_| random.word() as u8).collect();
        (self.lent.list, self.lent.buffer) = (any(), any());
    }

    fn export_listed(&mut self, answer: Answer) -> Result<(), Difference> {
        // A scan that listed nothing says 511 and 0.
        let listed = if answer.first == 0 { answer.last + 1 } else { 0 };
        if listed == 0 {
            return Ok(());
        }
        self.any_entry_now_and_then(listed);
        match self.at_rest() {
            Some(stream) => {
                let [_, _, hpa, _, last] = INFO;
                let info = last.with(hpa.with(0, self.random.word()), answer.last);
                self.export(stream, 0, info)
            }
            None => self.go_on(),
        }
    }

    /// Anything in the place of an entry of the list, which has so many.
    pub(super) fn any_entry_now_and_then(&mut self, entries: u64) {
        if self.random.one_in(8) {
            let (at, page) = (self.random.below(entries), self.random.below(self.pages));
            put(&mut self.lent.list, at as usize, entry(self.random, page, self.pages));
        }
    }

    /// A usable stream at rest.
    fn at_rest(&mut self) -> Option<u64> {
        let Session { created, streams, .. } = self.session();
        let from = self.random.below(created - 1);
        let mut usable = (from..created - 1).chain(0..from);
        usable.find(|&index| streams[index as usize] == Stream::AtRest)
    }

    fn export(&mut self, stream: u64, resume: u64, info: u64) -> Result<(), Difference> {
        let budget = budget(self.random, self.lent.list.len() as u64 / WORD as u64);
        let answer = self.call("export", &[stream, resume, info, budget])?;
        self.running[stream as usize] = (answer.code == INTERRUPTED).then(|| Running {
            info: answer.info,
            list: self.lent.list.clone(),
            buffer: self.lent.buffer.clone(),
        });
        Ok(())
    }

    /// Goes on with one of the exports that were interrupted.
    pub(super) fn go_on(&mut self) -> Result<(), Difference> {
        let from = self.random.below(8);
        let interrupted = (from..from + 8).map(|index| index % 8).find(|&index| self.running[index as usize].is_some());
        match interrupted {
            Some(stream) => {
                let Running { info, list, buffer } = self.running[stream as usize].take().unwrap();
                (self.lent.list, self.lent.buffer) = (list, buffer);
                self.export(stream, 1, info)
            }
            None => Ok(()),
        }
    }
}
