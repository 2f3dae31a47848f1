//! Lines with lists: scans, and exports of what they listed or of anything else.

use super::any::{entry, info, BOUNDS, LENGTHS};
use super::History;
use crate::bench::codes::INTERRUPTED;
use crate::bench::session::{Phase, Stream};
use crate::random::Random;

/// What an export is asked for.
struct Asked {
    stream: u64,
    resume: bool,
    first: u64,
    last: u64,
}

impl History {
    /// A scan, then mostly a track in Live, and an export of what was listed until it is over or was left.
    pub(super) fn round(&mut self, random: &mut Random) {
        self.lend_a_list(random);
        match self.scenario.session.phase {
            Phase::Live => {
                self.dscan(random);
                if !random.one_in(4) {
                    self.say("track".to_owned());
                }
            }
            _ => {
                let check = self.scenario.session.check;
                if (check.complete || check.failed) && !random.one_in(4) {
                    self.say("reset".to_owned());
                }
                self.dcheck(random);
            }
        }
        self.between(random);
        self.begin(random);
        while self.scenario.answer.code == INTERRUPTED && !random.one_in(4) {
            self.between(random);
            self.go_on(random);
        }
    }

    /// What may come between a scan and its export, or between two steps of an export.
    pub(super) fn between(&mut self, random: &mut Random) {
        match random.below(12) {
            0 => self.lend_a_list(random),
            1 => self.some_entries(random),
            2 => self.poke_one(random),
            3 => self.guest_call(random),
            4 => self.put_anywhere(random),
            _ => (),
        }
    }

    /// The calls with a list, over one that is there or is made for them.
    pub(super) fn call_with_a_list(&mut self, random: &mut Random, word: &str) {
        if random.one_in(2) {
            self.lend_a_list(random);
        }
        match word {
            "dscan" => self.dscan(random),
            "dcheck" => self.dcheck(random),
            "restore" => {
                self.some_entries(random);
                self.begin_restore(random);
            }
            _ => {
                self.some_entries(random);
                match self.interrupted(random) {
                    Some(_) if !random.one_in(3) => self.go_on(random),
                    _ => self.begin(random),
                }
            }
        }
    }

    /// A list and a buffer, of one length mostly.
    fn lend_a_list(&mut self, random: &mut Random) {
        let length = if random.one_in(3) { random.pick(&LENGTHS) } else { 1 + random.below(5) };
        let buffer = if random.one_in(16) { random.near(length) } else { length };
        self.lend_lists(length, buffer);
    }

    pub(super) fn lend_lists(&mut self, list: u64, buffer: u64) {
        self.say(format!("list {list}"));
        self.say(format!("buffer {buffer}"));
    }

    fn dscan(&mut self, random: &mut Random) {
        let first = random.below(self.pages);
        let rest = self.pages - first;
        let (first, count) = match random.below(8) {
            0 => (random.pick(&BOUNDS), random.pick(&BOUNDS)),
            1 => (random.near(first), random.near(rest)),
            2 | 3 => (first, 1 + random.below(rest)),
            _ => (0, self.pages),
        };
        let budget = self.pages_budget(random);
        self.scan(format!("dscan {first} {count} {budget}"));
    }

    fn dcheck(&mut self, random: &mut Random) {
        let budget = self.pages_budget(random);
        self.scan(format!("dcheck {budget}"));
    }

    fn scan(&mut self, line: String) {
        self.say(line);
        self.listed = self.scenario.answer.last;
    }

    fn pages_budget(&self, random: &mut Random) -> u64 {
        match random.below(8) {
            0 => random.pick(&BOUNDS),
            1 | 2 => random.below(3),
            3 => random.near(self.pages),
            _ => u64::MAX,
        }
    }

    /// A new export: of all that the last scan listed, of the whole list, or of a part of it.
    fn begin(&mut self, random: &mut Random) {
        let end = (self.scenario.spaces.list.lent as u64).saturating_sub(1);
        let last = match random.below(16) {
            0 => random.below(512),
            1 => end + 1,
            2 | 3 => end,
            4 | 5 => random.below(end + 1),
            _ => self.listed.min(end),
        };
        let stream = random.below(self.scenario.session.created.clamp(2, 9) - 1);
        self.export(random, Asked { stream, resume: false, first: 0, last });
    }

    /// A step more of an interrupted export, if there is one.
    pub(super) fn go_on(&mut self, random: &mut Random) {
        if let Some((stream, first, last)) = self.interrupted(random) {
            if last >= self.scenario.spaces.list.lent as u64 && !random.one_in(8) {
                self.lend_lists(last + 1, last + 1);
            }
            self.export(random, Asked { stream, resume: true, first, last });
        }
    }

    /// A stream that is interrupted, with its next and its last entry.
    fn interrupted(&self, random: &mut Random) -> Option<(u64, u64, u64)> {
        let from = random.below(8);
        (from..from + 8).map(|index| index % 8).find_map(|index| match self.scenario.session.streams[index as usize] {
            Stream::Interrupted { next, last, .. } => Some((index, next, last)),
            Stream::AtRest => None,
        })
    }

    /// An export as asked, or with one of its operands changed.
    fn export(&mut self, random: &mut Random, asked: Asked) {
        let Asked { mut stream, mut resume, mut first, mut last } = asked;
        match random.below(30) {
            0 => stream = random.pick(&BOUNDS),
            1 => resume = !resume,
            2 => first = random.near(first),
            3 => last = random.near(last),
            4 => stream = random.near(self.scenario.session.created),
            _ => (),
        }
        let resume = if resume { random.pick(&[1, 1, 1, 2, u64::MAX]) } else { 0 };
        let operands = self.part_and_budget(random, first, last);
        self.say(format!("export {stream} {resume} {operands}"));
    }

    /// The info word, and a budget of entries.
    pub(super) fn part_and_budget(&self, random: &mut Random, first: u64, last: u64) -> String {
        let budget = match random.below(4) {
            0 => random.pick(&BOUNDS),
            1 => random.below(4),
            2 => random.near(last + 1 - first.min(last)),
            _ => u64::MAX,
        };
        let info = info(random, first, last);
        let info = if random.one_in(4) { info.to_string() } else { format!("{info:#018x}") };
        format!("{info} {budget}")
    }

    /// A few entries at places that an export is likely to reach.
    fn some_entries(&mut self, random: &mut Random) {
        for _ in 0..1 + random.below(4) {
            let at = if random.one_in(4) { random.below(512) } else { random.below(6) };
            let page = random.pick(&self.some_pages());
            let word = entry(random, page, self.pages);
            self.say(format!("entry {at} {word:#x}"));
        }
    }
}
