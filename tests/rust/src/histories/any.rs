//! Values at random: some well-formed, some with a fault, and more of them near bounds than chance would have.

use crate::bench::record::{Record, BASE};
use crate::bench::session::{Check, Phase, Session, Stream};
use crate::bench::LAST_EPOCH;
use crate::random::Random;
use crate::words::{ENTRY, INFO};

/// Numbers at the bounds of some field, and far beyond all of them.
pub const BOUNDS: [u64; 22] = [
    0, 1, 2, 3, 4, 5, 7, 8, 9, 10, 511, 512, 4_095, 4_096, 4_097, 65_534, 65_535, 65_536, 1 << 32, 1 << 48, 1 << 63,
    u64::MAX,
];

/// Lengths of lists, those at the bounds among them.
pub const LENGTHS: [u64; 13] = [0, 1, 2, 3, 4, 5, 8, 256, 257, 511, 512, 513, 514];

/// A well-formed session, whether a history reaches it or not.
pub fn well_formed(random: &mut Random, pages: u64) -> Session {
    let phase = random.pick(&[Phase::Idle, Phase::Live, Phase::Live, Phase::Blackout, Phase::Blackout, Phase::Done]);
    let complete = random.one_in(3);
    let place = if complete { pages } else { random.below(pages + 1) };
    let created = 2 + random.below(8);
    let mut streams = Session::STREAMS_AT_REST;
    if matches!(phase, Phase::Live | Phase::Blackout) && random.one_in(3) {
        let usable = &mut streams[..created as usize - 1];
        for stream in usable {
            if random.one_in(3) {
                *stream = interrupted(random);
            }
        }
    }
    Session {
        phase,
        pages,
        tlb: random.pick(&[1, 2, 3, 4, 65_534, 65_535]),
        epoch: if phase == Phase::Idle { 0 } else { random.pick(&[1, 2, 3, 65_534, 65_535]) },
        created,
        check: Check { place, complete, failed: !complete && random.one_in(4) },
        streams,
    }
}

/// A stream that is interrupted somewhere.
pub fn interrupted(random: &mut Random) -> Stream {
    let last = if random.one_in(2) { random.below(8) } else { random.below(512) };
    let next = random.below(last + 1);
    Stream::Interrupted { next, last, errors: random.below(next + 1), data: random.below(next + 1) }
}

/// Word 0 of a page, mostly in a state that the base uses, with numbers that calls in this session tell apart; strange now and then.
pub fn record(random: &mut Random, session: &Session) -> u64 {
    // A session that is malformed may have numbers for which a record has no room.
    let (tlb, epoch) = (session.tlb.min(LAST_EPOCH), session.epoch.min(LAST_EPOCH));
    let stamps = [0, 1, tlb.saturating_sub(1), tlb, LAST_EPOCH.min(tlb + 1), LAST_EPOCH];
    let state = match random.below(12) {
        0 => random.below(256),
        // The states that start takes, and now and then one in which an abort leaves a page.
        _ if session.phase == Phase::Idle && !random.one_in(4) => random.below(5),
        _ => random.pick(&BASE),
    };
    let record = Record {
        state,
        dirty: random.one_in(2),
        cached: random.one_in(2),
        stamp: random.pick(&stamps),
        epoch: random.pick(&[0, epoch, LAST_EPOCH]),
    };
    let spare = match random.below(16) {
        0 => 1 << (10 + random.below(6)),
        1 => 1 << (48 + random.below(16)),
        _ => 0,
    };
    record.word() | spare
}

/// The entry that asks for this page to be exported or restored.
pub fn asked(page: u64) -> u64 {
    let [_, _, _, _, _, _, gpa, operation, ..] = ENTRY;
    operation.with(gpa.with(0, page), 1)
}

/// An entry for the page with what export ignores set at random, or one with a fault; the table has `pages`.
pub fn entry(random: &mut Random, page: u64, pages: u64) -> u64 {
    let [level, pending, state, reserved5, l2_map, mig_type, gpa, operation, reserved54, status, reserved61] = ENTRY;
    let mut word = asked(page);
    if random.one_in(3) {
        let ignored = random.word();
        word = [pending, state, l2_map, status].iter().fold(word, |word, run| run.with(word, run.of(ignored)));
    }
    match random.below(12) {
        0 => operation.with(word, random.word()),
        1 => gpa.with(word, pages + random.below(2)),
        2 => gpa.with(word, random.uneven_word()),
        3 => {
            let faulty = random.below(5) as usize;
            [level, reserved5, mig_type, reserved54, reserved61][faulty].with(word, random.word())
        }
        4 => random.uneven_word(),
        _ => word,
    }
}

/// An info word, in which bits that must be 0 are set now and then. HPA is any.
pub fn info(random: &mut Random, of_first: u64, of_last: u64) -> u64 {
    let [format, first, hpa, zero, last] = INFO;
    let mut word = last.with(first.with(hpa.with(0, random.word()), of_first), of_last);
    match random.below(40) {
        0 => word = format.with(word, random.word()),
        1 => word = zero.with(word, random.word()),
        _ => (),
    }
    word
}
