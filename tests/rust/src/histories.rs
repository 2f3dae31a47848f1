//! Scenarios that nobody wrote: lines for the program `scenario`, at random.

pub mod any;
mod lists;
mod restores;

use crate::bench::session::{Phase, Session, Stream};
use crate::bench::{MOST_ENTRIES, MOST_WORDS};
use crate::random::Random;
use crate::scenario::Scenario;
use any::{interrupted, record, well_formed, BOUNDS};

/// The words of the calls.
pub const CALLS: [&str; 18] = [
    "new", "write", "add", "accept", "block", "unblock", "remove", "track", "start", "pause", "abort", "newepoch",
    "dscan", "dcheck", "reset", "export", "restore", "token",
];

/// Those that a guest's life is made of.
const GUEST: [&str; 9] = ["write", "write", "add", "accept", "accept", "block", "unblock", "remove", "track"];

/// The words that are kept for the table, and for list and buffer each.
const SPACE: u64 = MOST_WORDS as u64 + 2;
const LISTS: u64 = MOST_ENTRIES as u64 + 2;

/// The session's fields that may be any number.
const NUMBERS: [&str; 5] = ["pages", "tlb", "epoch", "created", "place"];

/// At least `length` lines: histories from New, well-formed sessions over any records, such sessions with one field changed, and anything at all.
pub fn random_scenario(seed: u64, length: usize) -> String {
    let random = &mut Random::new(seed);
    let mut history = History { scenario: Scenario::default(), lines: Vec::new(), pages: 1, listed: 0 };
    while history.lines.len() < length {
        history.pages = if random.one_in(10) { MOST_WORDS as u64 / 2 } else { 1 + random.below(4) };
        match random.below(8) {
            0 | 1 => history.after_new(random),
            2..=4 => history.handed(random),
            5 | 6 => history.damaged(random),
            _ => history.anything(random),
        }
    }
    history.lines.join("\n") + "\n"
}

/// A scenario in the making. The predictor goes along, so that lines can fit where the scenario stands.
struct History {
    scenario: Scenario,
    lines: Vec<String>,
    /// The page count of the guest at hand, whatever the session says.
    pages: u64,
    /// The last entry that the last scan listed.
    listed: u64,
}

impl History {
    fn say(&mut self, line: String) {
        self.scenario.line(&line);
        self.lines.push(line);
    }

    /// A guest's life and migration, with the host's hand in it.
    fn after_new(&mut self, random: &mut Random) {
        self.say(format!("lend {}", 2 * self.pages));
        self.say(format!("new {}", 2 + random.below(8)));
        for page in self.some_pages() {
            self.say(format!("add {page}"));
            self.say(format!("accept {page}"));
        }
        for _ in 0..60 {
            let phase = self.scenario.session.phase;
            match random.below(30) {
                0 | 1 => self.poke_one(random),
                2..=5 if phase == Phase::Blackout => self.towards_the_token(random),
                6 => self.interrupt(random),
                7 if phase != Phase::Idle => (0..8).for_each(|index| self.say(format!("rest {index}"))),
                8 if random.one_in(4) => self.say(format!("tlb {}", random.pick(&[65_534, 65_535]))),
                9 if phase != Phase::Idle && random.one_in(4) => self.say("epoch 65534".to_owned()),
                10..=13 if matches!(phase, Phase::Live | Phase::Blackout) => self.round(random),
                10..=13 if phase == Phase::Idle && self.left_by_an_abort() => self.come_back(random),
                14..=16 if self.scenario.session.busy() => self.go_on(random),
                _ => self.fitting_call(random),
            }
        }
    }

    /// A well-formed session over any records, whether a history reaches it or not.
    fn handed(&mut self, random: &mut Random) {
        self.well_formed(random);
        self.some_pages().into_iter().for_each(|page| self.poke(random, page));
        for _ in 0..1 + random.below(4) {
            match self.scenario.session.phase {
                Phase::Live | Phase::Blackout if random.one_in(3) => self.round(random),
                Phase::Idle if random.one_in(3) => self.come_back(random),
                _ => self.any_call(random),
            }
        }
    }

    /// A well-formed session with one field changed, often beyond its range.
    fn damaged(&mut self, random: &mut Random) {
        for _ in 0..4 {
            self.well_formed(random);
            let check = self.scenario.session.check;
            let line = match random.below(12) {
                0 => format!("lend {}", random.pick(&[0, 1, 2 * self.pages + 1, 2 * self.pages + 2, 8_193, 8_194])),
                1 => format!("phase {}", random.below(4)),
                2 => format!("complete {}", !check.complete as u64),
                3 => format!("failed {}", !check.failed as u64),
                4 => format!("place {}", self.pages + random.below(2)),
                5..=7 => near_a_stream(random),
                _ => format!("{} {}", random.pick(&NUMBERS), random.pick(&BOUNDS)),
            };
            self.say(line);
            self.any_call(random);
        }
    }

    /// Any numbers anywhere.
    fn anything(&mut self, random: &mut Random) {
        for field in [
            "lend", "list", "buffer", "phase", "pages", "tlb", "epoch", "created", "place", "complete", "failed",
            "rest",
        ] {
            if random.one_in(2) {
                self.say(format!("{field} {}", random.pick(&BOUNDS)));
            }
        }
        self.say(near_a_stream(random));
        for _ in 0..4 {
            self.put_anywhere(random);
            self.any_call(random);
        }
        let (word, words) = random.pick(&[("show", SPACE), ("listed", LISTS), ("sent", LISTS)]);
        let from = random.below(words);
        self.say(format!("{word} {from} {}", from + random.below(20)));
    }

    /// Any word anywhere in one of the spaces, or just beyond.
    fn put_anywhere(&mut self, random: &mut Random) {
        let (word, words) = random.pick(&[("word", SPACE), ("entry", LISTS), ("content", LISTS)]);
        self.say(format!("{word} {} {}", random.below(words + 2), random.uneven_word()));
    }

    fn well_formed(&mut self, random: &mut Random) {
        let Session { phase, pages, tlb, epoch, created, check, streams } = well_formed(random, self.pages);
        self.say(format!("lend {}", 2 * pages));
        for (field, number) in [
            ("phase", phase as u64),
            ("pages", pages),
            ("tlb", tlb),
            ("epoch", epoch),
            ("created", created),
            ("place", check.place),
            ("complete", check.complete as u64),
            ("failed", check.failed as u64),
        ] {
            self.say(format!("{field} {number}"));
        }
        (0..8).for_each(|index| self.say_stream(index, streams[index]));
    }

    fn say_stream(&mut self, index: usize, stream: Stream) {
        self.say(match stream {
            Stream::AtRest => format!("rest {index}"),
            Stream::Interrupted { next, last, errors, data } => format!("stream {index} {next} {last} {errors} {data}"),
        });
    }

    /// Interrupts a usable stream, where one may be.
    fn interrupt(&mut self, random: &mut Random) {
        if matches!(self.scenario.session.phase, Phase::Live | Phase::Blackout) {
            let index = random.below(self.scenario.session.created - 1);
            self.say_stream(index as usize, interrupted(random));
        }
    }

    /// All pages of a small guest, and a few of a large one.
    fn some_pages(&self) -> Vec<u64> {
        match self.pages {
            0..=4 => (0..self.pages).collect(),
            pages => vec![0, 1, pages / 2, pages - 2, pages - 1],
        }
    }

    fn poke_one(&mut self, random: &mut Random) {
        let page = random.pick(&self.some_pages());
        self.poke(random, page);
    }

    fn poke(&mut self, random: &mut Random, page: u64) {
        let record = record(random, &self.scenario.session);
        self.say(format!("word {} {record}", 2 * page));
        self.say(format!("word {} {}", 2 * page + 1, random.uneven_word()));
    }

    /// What the token asks of pages and check, but for some pages, and the token.
    fn towards_the_token(&mut self, random: &mut Random) {
        for page in self.some_pages() {
            if random.one_in(4) {
                self.poke(random, page);
            } else {
                self.say(format!("word {} {}", 2 * page, random.pick(&[0, 24, 29])));
            }
        }
        self.say(format!("place {}", self.pages));
        self.say("failed 0".to_owned());
        self.say("complete 1".to_owned());
        self.say("token".to_owned());
    }

    /// A call that the phase is for, mostly.
    fn fitting_call(&mut self, random: &mut Random) {
        let fitting: &[&str] = match self.scenario.session.phase {
            Phase::Idle => &["start", "start", "restore"],
            Phase::Live => &["newepoch", "dscan", "reset", "export", "pause", "pause", "abort"],
            Phase::Blackout => &["newepoch", "dcheck", "reset", "export", "abort", "token", "token"],
            Phase::Done => &["new"],
        };
        let guest = matches!(self.scenario.session.phase, Phase::Idle | Phase::Live) && !random.one_in(6);
        let word = match random.below(12) {
            0 => random.pick(&CALLS[1..]),
            _ if guest => random.pick(&GUEST),
            _ => random.pick(fitting),
        };
        self.call(random, word);
    }

    fn guest_call(&mut self, random: &mut Random) {
        let word = random.pick(&GUEST);
        self.call(random, word);
    }

    fn any_call(&mut self, random: &mut Random) {
        let word = random.pick(&CALLS);
        self.call(random, word);
    }

    fn call(&mut self, random: &mut Random, word: &str) {
        let page = match random.below(16) {
            0 => random.pick(&BOUNDS),
            1 => self.pages,
            _ => random.pick(&self.some_pages()),
        };
        self.say(match word {
            "new" => format!("new {}", if random.one_in(4) { random.pick(&BOUNDS) } else { 2 + random.below(8) }),
            "write" => format!("write {page} {}", random.uneven_word()),
            "add" | "accept" | "block" | "unblock" | "remove" => format!("{word} {page}"),
            "dscan" | "dcheck" | "export" | "restore" => return self.call_with_a_list(random, word),
            _ => word.to_owned(),
        });
    }
}

/// An interrupted stream with numbers next to their bounds, on either side.
fn near_a_stream(random: &mut Random) -> String {
    let last = random.pick(&[0, 1, 5, 511, 512, u64::MAX]);
    let next = random.near(last);
    let (errors, data) = (random.near(next), random.near(next));
    format!("stream {} {next} {last} {errors} {data}", random.below(9))
}
