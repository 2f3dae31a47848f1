//! Calls that no driver makes, on a copy of what is lent, so that the history in which they come goes on undisturbed. Mostly the copy is damaged.

use crate::calls::{Call, Lent};
use crate::comparison::{Comparison, Difference};
use chirpsteeple_tests::bench::session::{Session, Stream};
use chirpsteeple_tests::histories::any::{entry, info, record, BOUNDS, LENGTHS};
use chirpsteeple_tests::histories::CALLS;
use chirpsteeple_tests::host::bytes::{self, SESSION_WORDS, STREAMS, WORD};
use chirpsteeple_tests::random::Random;
use chirpsteeple_tests::words::INFO;

pub fn stray(comparison: &mut Comparison, random: &mut Random, lent: &Lent) -> Result<(), Difference> {
    let mut copy = lent.clone();
    damage(random, &mut copy);
    let call = any_call(random, &copy);
    comparison.call(call, &mut copy).map(drop)
}

/// The lengths in bytes that are wrong for a session, and those about the bounds of a table.
const SESSION_LENGTHS: [usize; 8] = [0, 8, 376, 383, 385, 392, 424, 768];
const TABLE_LENGTHS: [usize; 12] = [0, 1, 8, 15, 16, 17, 24, 32, 65_520, 65_535, 65_536, 65_552];

fn damage(random: &mut Random, lent: &mut Lent) {
    match random.below(12) {
        0 | 1 => damage_word(random, &mut lent.session),
        2 => lent.session = resized(random, &lent.session, |random| random.pick(&SESSION_LENGTHS)),
        3 => lent.table = resized(random, &lent.table, |random| random.pick(&TABLE_LENGTHS)),
        4 => {
            let near = [lent.table.len() + 16, lent.table.len().saturating_sub(16), lent.table.len() + 8];
            lent.table = resized(random, &lent.table, |random| random.pick(&near));
        }
        5 => lent.list = ragged(random, &lent.list),
        6 => lent.buffer = ragged(random, &lent.buffer),
        7 | 8 => new_lists(random, lent),
        9 => new_record(random, lent),
        _ => (),
    }
}

fn damage_word(random: &mut Random, session: &mut [u8]) {
    let index = match random.below(2) {
        0 => random.below(STREAMS as u64),
        _ => random.below(SESSION_WORDS as u64),
    };
    let word = bytes::words(session).map_or(0, |words| words[index as usize]);
    let damaged = match random.below(4) {
        0 => random.near(word),
        1 => random.uneven_word(),
        _ => random.pick(&BOUNDS),
    };
    put(session, index as usize, damaged);
}

/// Puts a word into bytes.
pub fn put(bytes: &mut [u8], index: usize, word: u64) {
    bytes[WORD * index..WORD * (index + 1)].copy_from_slice(&word.to_le_bytes());
}

/// The bytes up to another length, with any bytes behind them where it is larger.
fn resized(random: &mut Random, bytes: &[u8], length: impl Fn(&mut Random) -> usize) -> Box<[u8]> {
    let mut bytes = bytes.to_vec();
    let length = length(random);
    bytes.truncate(length);
    bytes.resize_with(length, || random.word() as u8);
    bytes.into()
}

/// A few bytes more than whole words.
fn ragged(random: &mut Random, bytes: &[u8]) -> Box<[u8]> {
    resized(random, bytes, |random| bytes.len() + 1 + random.below(WORD as u64 - 1) as usize)
}

/// A list of any entries and a buffer of any words, of one length mostly.
pub fn new_lists(random: &mut Random, lent: &mut Lent) {
    let length = random.pick(&LENGTHS);
    let pages = pages(lent);
    let entries: Vec<u64> = (0..length).map(|_| any_entry(random, pages)).collect();
    lent.list = bytes::bytes(&entries).into();
    let length = if random.one_in(8) { random.near(length) } else { length };
    lent.buffer = resized(random, &[], |_| length as usize * WORD);
}

fn any_entry(random: &mut Random, pages: u64) -> u64 {
    let page = random.below(pages);
    entry(random, page, pages)
}

/// Any record at some page, with the same page in the list where there is one.
fn new_record(random: &mut Random, lent: &mut Lent) {
    let pages = pages(lent);
    let page = random.below(pages);
    if lent.table.len() >= 2 * WORD {
        let session = session(lent);
        put(&mut lent.table, 2 * page as usize, record(random, &session));
    }
    if lent.list.len() >= WORD {
        put(&mut lent.list, 0, entry(random, page, pages));
    }
}

/// Two words a page; at least one page, so that numbers can be taken below.
fn pages(lent: &Lent) -> u64 {
    (lent.table.len() / (2 * WORD)).max(1) as u64
}

fn session(lent: &Lent) -> Session {
    bytes::session(&lent.session).unwrap_or(Session::BLANK)
}

pub fn any_call(random: &mut Random, lent: &Lent) -> Call {
    let pages = pages(lent);
    let word = random.pick(&CALLS);
    match word {
        "new" => Call::new(word, &[if random.one_in(2) { random.pick(&BOUNDS) } else { 2 + random.below(8) }]),
        "export" => any_export(random, lent),
        "restore" => any_restore(random, lent),
        "dscan" if !random.one_in(4) => {
            let first = random.below(pages);
            let count = random.near(pages - first);
            Call::new(word, &[first, count, any_number(random, pages)])
        }
        _ => {
            let numbers: Vec<u64> = (0..Call::arity(word)).map(|_| any_number(random, pages)).collect();
            Call::new(word, &numbers)
        }
    }
}

/// Of some page mostly, or else at a bound, or any.
fn any_number(random: &mut Random, pages: u64) -> u64 {
    match random.below(8) {
        0 => random.pick(&BOUNDS),
        1 => random.near(pages),
        2 => random.uneven_word(),
        _ => random.below(pages),
    }
}

/// An export that fits a stream of the session, but for an operand now and then.
fn any_export(random: &mut Random, lent: &Lent) -> Call {
    let session = session(lent);
    let mut stream = random.below(session.created.clamp(2, 9) - 1);
    let (mut resume, mut first, mut last) = match session.streams[stream as usize] {
        Stream::Interrupted { next, last, .. } => (1, next, last),
        Stream::AtRest => (0, 0, last_of(lent)),
    };
    match random.below(10) {
        0 => stream = random.pick(&BOUNDS),
        1 => stream = random.near(session.created),
        2 => resume = 1 - resume,
        3 => resume = random.pick(&BOUNDS),
        4 => first = random.near(first),
        5 => last = random.near(last),
        _ => (),
    }
    let [info, budget] = info_and_budget(random, first, last);
    Call::new("export", &[stream, resume, info, budget])
}

/// A restore of a part of the list that begins anywhere, but for a bound now and then.
fn any_restore(random: &mut Random, lent: &Lent) -> Call {
    let mut last = last_of(lent);
    let mut first = if random.one_in(2) { 0 } else { random.below(last + 1) };
    match random.below(10) {
        0 => first = random.near(last + 1),
        1 => last = random.near(last),
        2 => last = random.near(first),
        _ => (),
    }
    Call::new("restore", &info_and_budget(random, first, last))
}

fn info_and_budget(random: &mut Random, first: u64, last: u64) -> [u64; 2] {
    [info(random, first, last), any_number(random, last.saturating_add(1))]
}

/// The last entry of the list, or 0.
fn last_of(lent: &Lent) -> u64 {
    (lent.list.len() / WORD).saturating_sub(1) as u64
}

/// The info word of the whole list.
pub fn whole_list(lent: &Lent) -> u64 {
    let [_, _, _, _, last] = INFO;
    last.with(0, last_of(lent))
}
