//! Lines that bring back what an abort left: restores of the pages or of anything else, in pieces.

use super::any::{asked, entry};
use super::History;
use crate::bench::codes::INTERRUPTED;
use crate::bench::lists::part;
use crate::bench::record::{records, Record};
use crate::random::Random;

impl History {
    /// Some page is in a state of a migration.
    pub(super) fn left_by_an_abort(&self) -> bool {
        let table = &self.scenario.spaces.table;
        records(&table.words[..table.lent]).flatten().any(|Record { state, .. }| state > 4)
    }

    /// Entries for the pages, a restore of them until it is over or was left, and mostly a start.
    pub(super) fn come_back(&mut self, random: &mut Random) {
        let pages = self.some_pages();
        self.lend_lists(pages.len() as u64, 0);
        for (at, page) in pages.into_iter().enumerate() {
            let word = if random.one_in(4) { entry(random, page, self.pages) } else { asked(page) };
            self.say(format!("entry {at} {word:#x}"));
        }
        self.begin_restore(random);
        while self.scenario.answer.code == INTERRUPTED && !random.one_in(6) {
            self.between(random);
            let (first, last) = part(self.scenario.answer.info);
            self.restore(random, first, last);
        }
        if !random.one_in(4) {
            self.say("start".to_owned());
        }
    }

    /// A restore of the whole list, or of a part of it.
    pub(super) fn begin_restore(&mut self, random: &mut Random) {
        let end = (self.scenario.spaces.list.lent as u64).saturating_sub(1);
        let (first, last) = match random.below(12) {
            0 => (random.below(512), random.below(512)),
            1 => (0, end + 1),
            2 | 3 => (random.below(end + 1), end),
            4 => (0, random.below(end + 1)),
            _ => (0, end),
        };
        self.restore(random, first, last);
    }

    /// A restore of this part, or with a bound of it changed.
    fn restore(&mut self, random: &mut Random, mut first: u64, mut last: u64) {
        match random.below(20) {
            0 => first = random.near(last + 1),
            1 => last = random.near(last),
            _ => (),
        }
        let operands = self.part_and_budget(random, first, last);
        self.say(format!("restore {operands}"));
    }
}
