//! Random histories over small guests, from New on and by calls alone. Some know their trade, and some are wild; few pages, so that the same page is met again and again, and tokens are frequent.

mod lists;
mod restores;

use crate::earn::{earn, Rooms};
use crate::play::{Broken, Guest, Play};
use crate::strays::{any_call, new_lists};
use crate::watcher::state;
use chirpsteeple_tests::bench::session::Phase;
use chirpsteeple_tests::bench::LAST_EPOCH;
use chirpsteeple_tests::random::Random;

/// Most steps are one call, some are several.
const STEPS: usize = 150;

/// What a guest does of itself, and what its host does to its pages.
const GUEST: [&str; 9] = ["write", "write", "write", "add", "accept", "block", "unblock", "remove", "track"];

/// A guest that a host plays with.
pub struct History<'a, 'b> {
    pub(crate) play: &'a mut Play<'b>,
    pub(crate) random: &'a mut Random,
    /// For what is done on copies, so that the history is the same without it.
    aside: Random,
    pub guest: Guest,
    pages: u64,
    /// One call in so many is a wild one.
    wild: u64,
    /// How many entries the last scan wrote to the list that is lent.
    listed: usize,
    /// The lists with which the streams' exports began.
    begun: [Vec<u64>; 8],
}

/// As many seeds meet all that is to be met.
pub const SEEDS: u64 = 2_000;

/// The history that follows from a seed. From paused states in it the token is earned too, on a copy, if `earning`.
pub fn history(play: &mut Play, seed: u64, earning: bool) -> Result<(), Broken> {
    let random = &mut Random::new(seed);
    let pages = if random.one_in(4) { 1 + random.below(12) } else { 1 + random.below(3) };
    History::new(play, random, pages).run(earning).map_err(|broken| broken.under(seed))
}

impl<'a, 'b> History<'a, 'b> {
    pub fn new(play: &'a mut Play<'b>, random: &'a mut Random, pages: u64) -> Self {
        let guest = Guest::new(random, pages);
        let wild = random.pick(&[6, 20, 100, 1_000]);
        let aside = Random::new(random.word());
        History { play, random, aside, guest, pages, wild, listed: 0, begun: Default::default() }
    }

    fn run(&mut self, earning: bool) -> Result<(), Broken> {
        self.renew(5)?;
        for _ in 0..STEPS {
            self.step()?;
            if earning {
                self.earn()?;
            }
        }
        Ok(())
    }

    /// New, and pages of which one in so many stays absent.
    pub fn renew(&mut self, absent: u64) -> Result<(), Broken> {
        let streams = 2 + self.random.below(8);
        self.call("new", &[streams])?;
        for page in 0..self.pages {
            if !self.random.one_in(absent) {
                self.call("add", &[page])?;
                if !self.random.one_in(5) {
                    self.call("accept", &[page])?;
                }
            }
        }
        Ok(())
    }

    pub fn call(&mut self, word: &'static str, numbers: &[u64]) -> Result<u64, Broken> {
        self.play.call(&mut self.guest, word, numbers).map(|answer| answer.code)
    }

    fn step(&mut self) -> Result<(), Broken> {
        if self.random.one_in(self.wild) {
            return self.wild();
        }
        if self.random.one_in(200) {
            return self.renew(5);
        }
        match self.guest.session().phase {
            Phase::Idle => self.idle(),
            Phase::Live => self.live(),
            Phase::Blackout => self.blackout(),
            Phase::Done if self.random.one_in(4) => self.wild(),
            Phase::Done => self.renew(5),
        }
    }

    /// Any call, over any list.
    fn wild(&mut self) -> Result<(), Broken> {
        new_lists(self.random, &mut self.guest.lent);
        self.listed = 0;
        let call = any_call(self.random, &self.guest.lent);
        if call.word == "new" && !self.random.one_in(8) {
            return Ok(());
        }
        self.play.made(&mut self.guest, call).map(drop)
    }

    fn idle(&mut self) -> Result<(), Broken> {
        match self.random.below(8) {
            0 | 1 => self.call("start", &[]).map(drop),
            2 | 3 if !self.left().is_empty() => self.come_back(),
            _ => self.guest_call(),
        }
    }

    fn live(&mut self) -> Result<(), Broken> {
        match self.random.below(40) {
            0..=15 => self.guest_call(),
            16..=18 => self.scan(),
            19..=21 => self.round(),
            22..=27 => self.export(),
            28..=31 => self.go_on(),
            32 | 33 => self.call("newepoch", &[]).map(drop),
            34 | 35 => self.call("track", &[]).map(drop),
            36 => self.call("pause", &[]).map(drop),
            37 | 38 => self.pause(),
            _ if self.random.one_in(4) => self.call("abort", &[]).map(drop),
            _ => self.call("reset", &[]).map(drop),
        }
    }

    fn blackout(&mut self) -> Result<(), Broken> {
        match self.random.below(32) {
            0..=4 => self.scan(),
            5..=9 => self.export(),
            10..=12 => self.go_on(),
            13 | 14 => self.call("newepoch", &[]).map(drop),
            15..=22 => self.call("token", &[]).map(drop),
            23 | 24 => self.call("reset", &[]).map(drop),
            25 => self.guest_call(),
            26 if self.random.one_in(3) => self.call("abort", &[]).map(drop),
            27 | 28 => self.towards_the_token(),
            _ => self.round(),
        }
    }

    /// A call on a page, mostly one that its state is for.
    pub fn guest_call(&mut self) -> Result<(), Broken> {
        let page = self.random.below(self.pages);
        let fitting: &[&'static str] = match state(&self.guest.lent.table, page as usize) {
            0 => &["add"],
            2 => &["accept", "accept", "block"],
            4 => &["write", "write", "write", "block"],
            24 | 25 => &["write", "write", "block"],
            29 | 30 => &["accept", "accept", "block"],
            1 | 3 | 26 | 31 => &["track", "track", "unblock", "unblock", "remove", "remove", "write"],
            _ => &GUEST,
        };
        let word = if self.random.one_in(6) { self.random.pick(&GUEST) } else { self.random.pick(fitting) };
        match word {
            "track" => self.call(word, &[]).map(drop),
            "write" => {
                let mark = self.random.uneven_word();
                self.call(word, &[page, mark]).map(drop)
            }
            _ => self.call(word, &[page]).map(drop),
        }
    }

    /// What pause asks for, and pause.
    pub fn pause(&mut self) -> Result<(), Broken> {
        while self.guest.session().busy() && !self.random.one_in(20) {
            self.go_on()?;
        }
        self.call("track", &[])?;
        for page in 0..self.pages {
            if matches!(state(&self.guest.lent.table, page as usize), 1 | 3 | 26 | 31) {
                let word = self.random.pick(&["unblock", "unblock", "remove"]);
                self.call(word, &[page])?;
            }
        }
        self.call("pause", &[]).map(drop)
    }

    /// What a token asks for, and the token, whether all of it was done or not.
    fn towards_the_token(&mut self) -> Result<(), Broken> {
        while self.guest.session().busy() && !self.random.one_in(20) {
            self.go_on()?;
        }
        self.call("reset", &[])?;
        self.round()?;
        while self.guest.session().busy() && !self.random.one_in(20) {
            self.go_on()?;
        }
        self.call("token", &[]).map(drop)
    }

    /// From a paused state the token is earned; the history goes on from where it was.
    fn earn(&mut self) -> Result<(), Broken> {
        let session = self.guest.session();
        let paused = session.phase == Phase::Blackout && !session.busy() && session.epoch < LAST_EPOCH;
        if paused && self.aside.one_in(3) {
            let rooms = self.aside.pick(&[Rooms::Any, Rooms::Any, Rooms::Full]);
            earn(self.play, &mut self.aside, &mut self.guest.clone(), rooms)?;
        }
        Ok(())
    }
}
