//! Demand 3 where numbers are at their limits: guests of 4,096 pages, and both epochs at the end.

use crate::earn::{earn, Rooms};
use crate::guests::History;
use crate::play::{Broken, Guest, Play};
use chirpsteeple_tests::bench::session::Phase;
use chirpsteeple_tests::bench::{LAST_EPOCH, MOST_WORDS};
use chirpsteeple_tests::random::Random;

const PAGES: u64 = MOST_WORDS as u64 / 2;

/// A guest of 4,096 pages that is paused at once, again with much of it exported and some of that changed, and again when that was aborted and has begun anew. From each the token is earned, and at most eight lists are needed with full rooms.
pub fn most_pages(play: &mut Play, seed: u64) -> Result<(), Broken> {
    let random = &mut Random::new(seed);
    let absent = random.pick(&[5, 1 << 32]);
    let mut history = History::new(play, random, PAGES);
    history.renew(absent)?;
    history.call("start", &[])?;
    history.pause_and_earn()?;
    history.sweep()?;
    (0..400).try_for_each(|_| history.guest_call())?;
    history.pause_and_earn()?;
    history.call("abort", &[])?;
    while history.guest.session().phase == Phase::Idle {
        history.come_back()?;
    }
    history.pause_and_earn()
}

/// The last sentence with the migration epoch one below its limit, and the TLB epoch at it.
pub fn last_epochs(play: &mut Play) -> Result<(), Broken> {
    let random = &mut Random::new(0);
    let mut guest = Guest::new(random, 1);
    let calls = |word, times| std::iter::repeat(word).take(times);
    play.call(&mut guest, "new", &[2])?;
    play.call(&mut guest, "add", &[0])?;
    play.call(&mut guest, "accept", &[0])?;
    let last = LAST_EPOCH as usize;
    for word in calls("track", last - 1).chain(["start"]).chain(calls("newepoch", last - 2)) {
        play.call(&mut guest, word, &[])?;
    }
    play.call(&mut guest, "write", &[0, 7])?;
    play.call(&mut guest, "pause", &[])?;
    let session = guest.session();
    assert_eq!((session.tlb, session.epoch), (LAST_EPOCH, LAST_EPOCH - 1));
    earn(play, random, &mut guest, Rooms::Any).map(drop)
}

impl History<'_, '_> {
    /// Pauses a copy, and earns the token from it with full rooms and with any.
    fn pause_and_earn(&mut self) -> Result<(), Broken> {
        let went_on = self.guest.clone();
        self.pause()?;
        for rooms in [Rooms::Full, Rooms::Any] {
            earn(self.play, self.random, &mut self.guest.clone(), rooms)?;
        }
        self.guest = went_on;
        Ok(())
    }
}
