//! The last sentence of demand 3: from a paused state with streams at rest and the migration epoch below its limit, reset, check, one new epoch and at most eight lists earn the token.

use crate::play::{Broken, Guest, Play};
use crate::watcher::word;
use chirpsteeple_tests::bench::codes::{CHECK_COMPLETE, DONE, INTERRUPTED, LIST_FULL};
use chirpsteeple_tests::bench::MOST_ENTRIES;
use chirpsteeple_tests::random::Random;
use chirpsteeple_tests::words::INFO;

/// The lists of a check: of any length and with any budget, or of 512 and with all the budget that there is.
#[derive(Clone, Copy, PartialEq, Eq)]
pub enum Rooms {
    Any,
    Full,
}

/// What the demand allows, with full rooms.
pub const MOST_LISTS: usize = 8;

/// Earns the token, and answers with how many lists.
pub fn earn(play: &mut Play, random: &mut Random, guest: &mut Guest, rooms: Rooms) -> Result<usize, Broken> {
    expect(play, guest, "reset", DONE)?;
    let lists = check(play, random, guest, rooms)?;
    if rooms == Rooms::Full && lists.len() > MOST_LISTS {
        return Err(guest.broken(&format!("{} lists of a check", lists.len())));
    }
    let count = lists.len();
    expect(play, guest, "newepoch", DONE)?;
    export(play, random, guest, lists)?;
    expect(play, guest, "token", DONE)?;
    *play.earned.entry(count).or_default() += 1;
    Ok(count)
}

fn expect(play: &mut Play, guest: &mut Guest, word: &'static str, code: u64) -> Result<(), Broken> {
    match play.call(guest, word, &[])?.code {
        found if found == code => Ok(()),
        _ => Err(guest.broken("the token is not earned")),
    }
}

/// DCHECKs to the end, of which as many as there are pages are enough: the lists that are not empty.
fn check(play: &mut Play, random: &mut Random, guest: &mut Guest, rooms: Rooms) -> Result<Vec<Vec<u64>>, Broken> {
    let pages = guest.session().pages;
    let most = MOST_ENTRIES as u64;
    let mut lists = Vec::new();
    for _ in 0..pages {
        let (room, budget) = match rooms {
            Rooms::Full => (most, u64::MAX),
            Rooms::Any => {
                let below = random.pick(&[1, 2, most, most.min(pages + 1)]);
                let budget = if random.one_in(3) { u64::MAX } else { 1 + random.below(pages) };
                (1 + random.below(below), budget)
            }
        };
        guest.lend(random, &vec![0; room as usize]);
        let answer = play.call(guest, "dcheck", &[budget])?;
        if answer.first == 0 {
            lists.push((0..=answer.last as usize).map(|index| word(&guest.lent.list, index)).collect());
        }
        match answer.code {
            CHECK_COMPLETE => return Ok(lists),
            INTERRUPTED | LIST_FULL => (),
            _ => break,
        }
    }
    Err(guest.broken("the check does not come to its end"))
}

/// A list that is being exported, and how far it has come.
struct Running {
    list: Vec<u64>,
    resume: u64,
    info: u64,
}

/// Exports the lists to their ends, in any order and on any usable streams, several at once where there are several.
fn export(play: &mut Play, random: &mut Random, guest: &mut Guest, lists: Vec<Vec<u64>>) -> Result<(), Broken> {
    let [_, _, _, _, last] = INFO;
    let usable = guest.session().created - 1;
    let mut running: Vec<Option<Running>> = (0..usable).map(|_| None).collect();
    let mut waiting = lists;
    while !waiting.is_empty() || running.iter().any(Option::is_some) {
        let stream = random.below(usable);
        let place = &mut running[stream as usize];
        if place.is_none() && !waiting.is_empty() {
            let list = waiting.swap_remove(random.below(waiting.len() as u64) as usize);
            *place = Some(Running { resume: 0, info: last.with(0, list.len() as u64 - 1), list });
        }
        *place = match place.take() {
            Some(run) => step(play, random, guest, stream, run)?,
            None => None,
        };
    }
    Ok(())
}

/// A call more for a list; nothing is left of one that has come to its end.
fn step(
    play: &mut Play,
    random: &mut Random,
    guest: &mut Guest,
    stream: u64,
    run: Running,
) -> Result<Option<Running>, Broken> {
    let budget = if random.one_in(2) { u64::MAX } else { random.below(run.list.len() as u64 + 1) };
    guest.lend(random, &run.list);
    let answer = play.call(guest, "export", &[stream, run.resume, run.info, budget])?;
    match answer.code {
        DONE => Ok(None),
        INTERRUPTED => Ok(Some(Running { resume: 1, info: answer.info, ..run })),
        _ => Err(guest.broken("a list does not come to its end")),
    }
}
