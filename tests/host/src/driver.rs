//! Migrations as a driver makes them, from New to the token, with a guest that goes on meanwhile; strays come between its calls.

mod exports;
mod restores;

use crate::calls::{Call, Lent};
use crate::comparison::{Comparison, Difference};
use crate::strays::{put, stray};
use chirpsteeple_tests::bench::codes::{
    EXPORTED_DIRTY_PAGES_REMAIN, MIGRATION_EPOCH_OVERFLOW, UNEXPORTED_MEMORY_REMAINS,
};
use chirpsteeple_tests::bench::record::{records, Record};
use chirpsteeple_tests::bench::session::{Phase, Session};
use chirpsteeple_tests::bench::{Answer, LAST_EPOCH};
use chirpsteeple_tests::histories::any::record;
use chirpsteeple_tests::host::bytes::{self, SESSION_WORDS};
use chirpsteeple_tests::random::Random;
use exports::Running;

/// The places of the two epochs in the session.
const TLB_EPOCH: usize = 2;
const MIGRATION_EPOCH: usize = 3;

/// A driver gives up after this many steps, most of which are several calls.
const STEPS: usize = 80;

/// What a guest does of itself, and what its host does to its pages.
const GUEST: [&str; 9] = ["write", "write", "write", "add", "accept", "block", "unblock", "remove", "track"];

struct Driver<'a, 'b> {
    comparison: &'a mut Comparison<'b>,
    random: &'a mut Random,
    lent: Lent,
    pages: u64,
    /// The exports that were interrupted, by their streams.
    running: [Option<Running>; 8],
}

/// A guest from New to Done, or to where its driver gives up.
pub fn migration(comparison: &mut Comparison, random: &mut Random) -> Result<(), Difference> {
    let pages = match random.below(12) {
        0 => 4_096 - random.below(2),
        1 => 1 + random.below(1_000),
        2..=4 => 1 + random.below(64),
        _ => 1 + random.below(6),
    };
    // New reads nothing, so that anything may be there before it.
    let session: Vec<u64> = (0..SESSION_WORDS).map(|_| random.uneven_word()).collect();
    let table: Vec<u64> = (0..2 * pages).map(|_| random.uneven_word()).collect();
    let lent = Lent::new(&session, &table, &[], &[]);
    let mut driver = Driver { comparison, random, lent, pages, running: Default::default() };
    driver.populate()?;
    for _ in 0..STEPS {
        match driver.session().phase {
            Phase::Idle => driver.idle()?,
            Phase::Live => driver.live()?,
            Phase::Blackout => driver.blackout()?,
            Phase::Done => {
                driver.comparison.reached.migration();
                return (0..4).try_for_each(|_| driver.stray());
            }
        }
    }
    Ok(())
}

impl Driver<'_, '_> {
    /// What the bytes of a driver's session mean; it never damages them.
    fn session(&self) -> Session {
        bytes::session(&self.lent.session).unwrap()
    }

    fn stray(&mut self) -> Result<(), Difference> {
        stray(self.comparison, self.random, &self.lent)
    }

    fn call(&mut self, word: &'static str, numbers: &[u64]) -> Result<Answer, Difference> {
        if self.random.one_in(4) {
            self.stray()?;
        }
        self.comparison.call(Call::new(word, numbers), &mut self.lent)
    }

    fn put_record(&mut self, page: u64, word: u64) {
        put(&mut self.lent.table, 2 * page as usize, word);
    }

    /// New, and pages for a start: by calls, or by hand where they are many.
    fn populate(&mut self) -> Result<(), Difference> {
        let streams = 2 + self.random.below(8);
        self.call("new", &[streams])?;
        for page in 0..self.pages {
            if self.pages > 64 {
                let state = self.random.pick(&[0, 2, 4, 4, 4]);
                let record = Record { state, dirty: self.random.one_in(8), cached: false, stamp: 0, epoch: 0 };
                self.put_record(page, record.word());
                let mark = self.random.word();
                put(&mut self.lent.table, 2 * page as usize + 1, mark);
            } else if !self.random.one_in(6) {
                self.call("add", &[page])?;
                if !self.random.one_in(5) {
                    self.call("accept", &[page])?;
                }
            }
        }
        if self.random.one_in(4) {
            let epoch = LAST_EPOCH - self.random.below(4);
            put(&mut self.lent.session, TLB_EPOCH, epoch);
        }
        Ok(())
    }

    fn idle(&mut self) -> Result<(), Difference> {
        self.running = Default::default();
        self.guest()?;
        if !self.random.one_in(4) {
            self.restore_what_is_left()?;
        }
        if self.random.one_in(2) {
            self.call("start", &[])?;
            if self.session().phase == Phase::Live && self.random.one_in(4) {
                let epoch = LAST_EPOCH - self.random.below(4);
                put(&mut self.lent.session, MIGRATION_EPOCH, epoch);
            }
        }
        Ok(())
    }

    /// Some calls on pages.
    fn guest(&mut self) -> Result<(), Difference> {
        for _ in 0..1 + self.random.below(8 + (self.pages / 8).min(40)) {
            let word = self.random.pick(&GUEST);
            let page = self.random.below(self.pages);
            match word {
                "track" => self.call(word, &[])?,
                "write" => {
                    let mark = self.random.uneven_word();
                    self.call(word, &[page, mark])?
                }
                _ => self.call(word, &[page])?,
            };
        }
        Ok(())
    }

    fn live(&mut self) -> Result<(), Difference> {
        match self.random.below(24) {
            0..=6 => self.guest(),
            7..=14 => {
                if self.random.one_in(2) {
                    self.call("newepoch", &[])?;
                }
                self.round()
            }
            15 | 16 => self.call("newepoch", &[]).map(drop),
            17..=19 => self.go_on(),
            20 if self.random.one_in(6) => self.call("abort", &[]).map(drop),
            // Any record, strange ones too: a host's hand reaches everywhere.
            21 if self.random.one_in(6) => {
                let page = self.random.below(self.pages);
                let word = record(self.random, &self.session());
                self.put_record(page, word);
                Ok(())
            }
            _ => self.pause(),
        }
    }

    /// What pause asks for, and pause.
    fn pause(&mut self) -> Result<(), Difference> {
        while self.session().busy() && !self.random.one_in(20) {
            self.go_on()?;
        }
        self.call("track", &[])?;
        for page in self.blocked() {
            self.call("unblock", &[page])?;
        }
        self.call("pause", &[]).map(drop)
    }

    fn blocked(&self) -> Vec<u64> {
        self.pages_in(|state| matches!(state, 1 | 3 | 26 | 31))
    }

    /// The pages in these states, strange ones apart.
    fn pages_in(&self, states: impl Fn(u64) -> bool) -> Vec<u64> {
        let table = bytes::words(&self.lent.table).unwrap();
        let found = |record: Option<Record>| record.map_or(false, |record| states(record.state));
        (0..).zip(records(&table)).filter(|(_, record)| found(*record)).map(|(page, _)| page).collect()
    }

    fn blackout(&mut self) -> Result<(), Difference> {
        let Session { check, .. } = self.session();
        if self.random.one_in(40) {
            return self.call("abort", &[]).map(drop);
        }
        if self.session().busy() {
            self.go_on()
        } else if check.failed || self.random.one_in(20) {
            self.call("reset", &[]).map(drop)
        } else if !check.complete {
            self.check_round()
        } else {
            self.token()
        }
    }

    /// An epoch is opened before a check, since a page is exported once in each.
    fn check_round(&mut self) -> Result<(), Difference> {
        if self.session().check.place == 0 && !self.random.one_in(8) {
            let answer = self.call("newepoch", &[])?;
            if answer.code == MIGRATION_EPOCH_OVERFLOW && self.random.one_in(4) {
                return self.call("abort", &[]).map(drop);
            }
        }
        self.round()
    }

    fn token(&mut self) -> Result<(), Difference> {
        match self.call("token", &[])?.code {
            EXPORTED_DIRTY_PAGES_REMAIN | UNEXPORTED_MEMORY_REMAINS => self.call("reset", &[]).map(drop),
            _ => Ok(()),
        }
    }
}
