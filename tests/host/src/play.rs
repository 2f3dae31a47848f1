//! Calls on a guest whose table only calls have changed: a watcher looks on, and after each of them demand 3 must stand.

use crate::calls::{Bench, Call, Lent};
use crate::replay::granted;
use crate::seen::Seen;
use crate::watcher::Watcher;
use chirpsteeple_tests::bench::codes::DONE;
use chirpsteeple_tests::bench::session::Session;
use chirpsteeple_tests::bench::Answer;
use chirpsteeple_tests::host::bytes::{self, SESSION_WORDS};
use chirpsteeple_tests::random::Random;
use std::collections::BTreeMap;
use std::fmt;

/// What a host has of a guest. A copy of it goes its own way.
#[derive(Clone)]
pub struct Guest {
    pub lent: Lent,
    pub watcher: Watcher,
    /// The calls since the guest began, each with its code.
    calls: Vec<(Call, u64)>,
}

impl Guest {
    /// A guest of so many pages, before its first New. New reads nothing, so that anything may be there.
    pub fn new(random: &mut Random, pages: u64) -> Self {
        let session: Vec<u64> = (0..SESSION_WORDS).map(|_| random.uneven_word()).collect();
        let table: Vec<u64> = (0..2 * pages).map(|_| random.uneven_word()).collect();
        Guest { lent: Lent::new(&session, &table, &[], &[]), watcher: Watcher::default(), calls: Vec::new() }
    }

    /// What the session's bytes mean after New.
    pub fn session(&self) -> Session {
        bytes::session(&self.lent.session).expect("a session that a call returned")
    }

    /// Lends a list of these words, and a buffer of as many that are anything.
    pub fn lend(&mut self, random: &mut Random, list: &[u64]) {
        let buffer: Vec<u64> = list.iter().map(|_| random.word()).collect();
        self.lent.list = bytes::bytes(list).into();
        self.lent.buffer = bytes::bytes(&buffer).into();
    }
}

pub struct Play<'a> {
    bench: &'a mut dyn Bench,
    /// For the orders in which logs are replayed.
    orders: Random,
    pub seen: Seen,
    /// How often the token was earned from a paused state, by the number of lists.
    pub earned: BTreeMap<usize, usize>,
}

impl<'a> Play<'a> {
    pub fn new(bench: &'a mut dyn Bench) -> Self {
        Play { bench, orders: Random::new(0), seen: Seen::default(), earned: BTreeMap::new() }
    }

    /// What was seen, for a reader.
    pub fn report(&self) -> String {
        format!("{}\npaused states from which the token was earned, by lists: {:?}", self.seen.table(), self.earned)
    }

    pub fn call(&mut self, guest: &mut Guest, word: &'static str, numbers: &[u64]) -> Result<Answer, Broken> {
        self.made(guest, Call::new(word, numbers))
    }

    pub fn made(&mut self, guest: &mut Guest, call: Call) -> Result<Answer, Broken> {
        let Guest { lent, watcher, calls } = guest;
        let answer = self.bench.call(call, lent);
        calls.push((call, answer.code));
        self.seen.call(call, &answer, watcher);
        let watched = watcher.saw(call, &answer, lent).and_then(|()| watcher.is_in(&lent.table));
        let stands = match (call.word, answer.code) {
            ("token", DONE) => watched.and_then(|()| granted(watcher, &lent.table, &mut self.orders)),
            _ => watched,
        };
        stands.map(|()| answer).map_err(|what| guest.broken(&what))
    }
}

impl Guest {
    /// Tells what went wrong, and the last calls before it.
    pub fn broken(&self, what: &str) -> Broken {
        const TOLD: usize = 60;
        let from = self.calls.len().saturating_sub(TOLD);
        let calls: Vec<String> = self.calls[from..].iter().map(|(call, code)| format!("{call}: {code}")).collect();
        Broken(format!("call {}: {what}\n  after {}", self.calls.len(), calls.join(", ")))
    }
}

/// Demand 3 does not stand.
#[derive(Debug)]
pub struct Broken(String);

impl Broken {
    /// Tells the seed too, so that it can be come to again.
    pub fn under(self, seed: u64) -> Self {
        Broken(format!("seed {seed}, {self}"))
    }
}

impl fmt::Display for Broken {
    fn fmt(&self, f: &mut fmt::Formatter) -> fmt::Result {
        f.write_str(&self.0)
    }
}
