//! Scans of small guests, and exports of what they listed or of anything else, in pieces and on several streams.

use super::History;
use crate::play::Broken;
use crate::watcher::word;
use chirpsteeple_tests::bench::session::{Phase, Session, Stream};
use chirpsteeple_tests::bench::MOST_ENTRIES;
use chirpsteeple_tests::histories::any::{asked, entry};
use chirpsteeple_tests::words::INFO;

impl History<'_, '_> {
    /// A scan of all pages or of a part, with room for all or for few.
    pub(super) fn scan(&mut self) -> Result<(), Broken> {
        let first = if self.random.one_in(2) { 0 } else { self.random.below(self.pages) };
        let count = if self.random.one_in(2) { self.pages - first } else { 1 + self.random.below(self.pages - first) };
        let room = if self.random.one_in(3) { self.random.below(self.pages + 1) } else { self.pages };
        let budget = self.budget(self.pages);
        self.scan_part(first, count, room, budget)
    }

    /// DSCAN of the part, or DCHECK from where it is.
    fn scan_part(&mut self, first: u64, count: u64, room: u64, budget: u64) -> Result<(), Broken> {
        let Session { phase, check, .. } = self.guest.session();
        if phase == Phase::Blackout && check.complete && !self.random.one_in(4) {
            self.call("reset", &[])?;
        }
        let room = room.min(MOST_ENTRIES as u64) as usize;
        self.guest.lend(self.random, &vec![0; room]);
        let answer = match phase {
            Phase::Live => self.play.call(&mut self.guest, "dscan", &[first, count, budget])?,
            _ => self.play.call(&mut self.guest, "dcheck", &[budget])?,
        };
        // A scan that listed nothing says 511 and 0; one that was refused says 0 and 0, and its list is all 0.
        self.listed = if answer.first == 0 && answer.next > 0 { answer.last as usize + 1 } else { 0 };
        Ok(())
    }

    /// A scan of everything, mostly with a track behind it, and an export.
    pub(super) fn round(&mut self) -> Result<(), Broken> {
        if self.random.one_in(2) {
            self.call("newepoch", &[])?;
        }
        self.scan_part(0, self.pages, self.pages, u64::MAX)?;
        if self.guest.session().phase == Phase::Live && !self.random.one_in(4) {
            self.call("track", &[])?;
        }
        self.export()
    }

    /// Lists and exports every page, in parts that a list has room for.
    pub(crate) fn sweep(&mut self) -> Result<(), Broken> {
        for first in (0..self.pages).step_by(MOST_ENTRIES) {
            let count = (self.pages - first).min(MOST_ENTRIES as u64);
            self.scan_part(first, count, count, u64::MAX)?;
            self.call("track", &[])?;
            self.export()?;
        }
        while self.guest.session().busy() {
            self.go_on()?;
        }
        Ok(())
    }

    pub(super) fn budget(&mut self, whole: u64) -> u64 {
        if self.random.one_in(2) {
            u64::MAX
        } else {
            self.random.below(whole + 1)
        }
    }

    /// An export on any usable stream: a new one of what was listed or of anything, or the one that runs there.
    pub(super) fn export(&mut self) -> Result<(), Broken> {
        let Session { created, streams, .. } = self.guest.session();
        let stream = self.random.below(created - 1) as usize;
        if streams[stream] != Stream::AtRest {
            return self.resume(stream);
        }
        let list = match self.listed {
            0 => self.any_list(0),
            _ if self.random.one_in(4) => self.any_list(0),
            listed => (0..listed).map(|index| word(&self.guest.lent.list, index)).collect(),
        };
        self.listed = 0;
        self.guest.lend(self.random, &list);
        let last = if self.random.one_in(8) { self.random.below(list.len() as u64) } else { list.len() as u64 - 1 };
        self.begun[stream] = list;
        self.export_on(stream, 0, 0, last)
    }

    /// A list for any pages, of which it may have one twice, with some entries that are anything; not shorter than is said.
    pub(super) fn any_list(&mut self, least: u64) -> Vec<u64> {
        let length = least.max(1 + self.random.below(2 * self.pages.min(4)));
        (0..length).map(|_| self.any_entry()).collect()
    }

    fn any_entry(&mut self) -> u64 {
        let page = self.random.below(self.pages);
        if self.random.one_in(8) {
            entry(self.random, page, self.pages)
        } else {
            asked(page)
        }
    }

    /// Goes on with one of the exports that were interrupted.
    pub(super) fn go_on(&mut self) -> Result<(), Broken> {
        let Session { streams, .. } = self.guest.session();
        let from = self.random.below(8) as usize;
        let interrupted = (from..from + 8).map(|index| index % 8).find(|&index| streams[index] != Stream::AtRest);
        interrupted.map_or(Ok(()), |stream| self.resume(stream))
    }

    /// With the list that it began with, or with another.
    fn resume(&mut self, stream: usize) -> Result<(), Broken> {
        let (next, last) = match self.guest.session().streams[stream] {
            Stream::Interrupted { next, last, .. } => (next, last),
            Stream::AtRest => return Ok(()),
        };
        let list = match self.begun[stream].len() as u64 > last && !self.random.one_in(3) {
            true => self.begun[stream].clone(),
            false => self.any_list(last + 1),
        };
        self.guest.lend(self.random, &list);
        self.listed = 0;
        self.export_on(stream, 1, next, last)
    }

    fn export_on(&mut self, stream: usize, resume: u64, of_first: u64, of_last: u64) -> Result<(), Broken> {
        let info = self.info(of_first, of_last);
        let budget = self.budget(of_last - of_first + 1);
        self.call("export", &[stream as u64, resume, info, budget]).map(drop)
    }

    /// An info word with any HPA.
    pub(super) fn info(&mut self, of_first: u64, of_last: u64) -> u64 {
        let [_, first, hpa, _, last] = INFO;
        last.with(first.with(hpa.with(0, self.random.word()), of_first), of_last)
    }
}
