//! Damage that leaves nothing to chance: every word of a session, and every slice at lengths about its bounds, for every call in every phase.

use crate::calls::{Call, Lent};
use crate::comparison::{Comparison, Difference};
use crate::strays::put;
use chirpsteeple_tests::bench::record::Record;
use chirpsteeple_tests::bench::session::{Check, Phase, Session, Stream};
use chirpsteeple_tests::histories::any::{asked, BOUNDS};
use chirpsteeple_tests::histories::CALLS;
use chirpsteeple_tests::host::bytes::{self, WORD};
use chirpsteeple_tests::words::INFO;
use std::collections::BTreeSet;

const PAGES: u64 = 3;

/// A call of each kind that fits what `well_formed` lends, or nearly.
fn every_call() -> impl Iterator<Item = Call> {
    CALLS.iter().map(|&word| match word {
        "new" => Call::new(word, &[5]),
        "dscan" => Call::new(word, &[0, PAGES, 9]),
        "export" => export(3, 0),
        "restore" => Call::new(word, &[whole_list(), 9]),
        // The page and the mark, or the budget.
        _ => Call::new(word, &[1, 9][..Call::arity(word)]),
    })
}

/// An export of the whole list.
fn export(stream: u64, resume: u64) -> Call {
    Call::new("export", &[stream, resume, whole_list(), 9])
}

/// The info word of the whole list.
fn whole_list() -> u64 {
    let [_, _, _, _, last] = INFO;
    last.with(0, PAGES - 1)
}

/// Three pages that can be exported in Live, the last of which can be restored in Idle; streams 0 and 2 are interrupted where they may be, and 1 and 3 at rest.
fn well_formed(phase: Phase, check: Check) -> Lent {
    let migrating = matches!(phase, Phase::Live | Phase::Blackout);
    let mut streams = Session::STREAMS_AT_REST;
    if migrating {
        streams[0] = Stream::Interrupted { next: 2, last: 2, errors: 1, data: 1 };
        streams[2] = Stream::Interrupted { next: 0, last: 511, errors: 0, data: 0 };
    }
    let epoch = if phase == Phase::Idle { 0 } else { 2 };
    let session = Session { phase, pages: PAGES, tlb: 3, epoch, created: 5, check, streams };
    let record = |state, stamp| Record { state, dirty: false, cached: true, stamp, epoch: 1 }.word();
    let table = [record(4, 2), 70, record(2, 2), 0, record(27, 0), 0];
    let list: Vec<u64> = (0..PAGES).map(asked).collect();
    Lent::of_session(&session, &table, &list, &[7; PAGES as usize])
}

/// Each phase with each way that a check may stand.
fn every_standing() -> Vec<Lent> {
    let complete = Check { place: PAGES, complete: true, failed: false };
    let failed = Check { place: 1, complete: false, failed: true };
    let checks = [Check::RESET, complete, failed];
    Phase::ALL.iter().flat_map(|&phase| checks.map(|check| well_formed(phase, check))).collect()
}

/// Numbers to put in a word's place, each once: those at bounds, those next to it, and those that differ from it in one byte.
fn instead_of(word: u64) -> BTreeSet<u64> {
    let bytes = (0..64).step_by(8).flat_map(|low| [word ^ 1 << low, word ^ 0x80 << low]);
    BOUNDS.into_iter().chain([word.wrapping_add(1), word.wrapping_sub(1)]).chain(bytes).collect()
}

pub fn every_word_of_a_session(comparison: &mut Comparison) -> Result<(), Difference> {
    for lent in every_standing() {
        for (index, word) in bytes::words(&lent.session).unwrap().into_iter().enumerate() {
            for word in instead_of(word) {
                let mut damaged = lent.clone();
                put(&mut damaged.session, index, word);
                every_call().try_for_each(|call| comparison.call(call, &mut damaged.clone()).map(drop))?;
            }
        }
    }
    Ok(())
}

/// The bytes cut off, or with bytes behind them.
fn at_length(bytes: &[u8], length: usize) -> Box<[u8]> {
    let mut bytes = bytes.to_vec();
    bytes.resize(length, 0x5a);
    bytes.into()
}

/// Lengths of a session, a table, and a list or buffer, those about a bound among them.
const SESSIONS: [usize; 10] = [0, 7, 8, 376, 383, 384, 385, 391, 392, 768];
const TABLES: [usize; 16] = [0, 1, 8, 15, 16, 17, 24, 31, 32, 33, 48, 65_520, 65_535, 65_536, 65_537, 65_552];
const LISTS: [usize; 14] = [0, 1, 7, 8, 9, 16, 23, 24, 25, 31, 32, 4_096, 4_097, 4_104];

pub fn every_length(comparison: &mut Comparison) -> Result<(), Difference> {
    for lent in every_standing() {
        lengths_of_session_and_table(comparison, &lent)?;
        lengths_of_list_and_buffer(comparison, &lent)?;
    }
    Ok(())
}

/// With the session's own page count, and with the one that the table's length gives.
fn lengths_of_session_and_table(comparison: &mut Comparison, lent: &Lent) -> Result<(), Difference> {
    for table in TABLES {
        for pages in [PAGES, (table / (2 * WORD)) as u64] {
            let mut fitting = lent.clone();
            fitting.table = at_length(&lent.table, table);
            put(&mut fitting.session, 1, pages);
            for session in SESSIONS {
                let mut damaged = fitting.clone();
                damaged.session = at_length(&fitting.session, session);
                every_call().try_for_each(|call| comparison.call(call, &mut damaged.clone()).map(drop))?;
            }
        }
    }
    Ok(())
}

fn lengths_of_list_and_buffer(comparison: &mut Comparison, lent: &Lent) -> Result<(), Difference> {
    let streams = [0, 2, 3, 4, u64::MAX];
    let exports = streams.iter().flat_map(|&stream| [0, 1, 2, u64::MAX].map(|resume| export(stream, resume)));
    for call in exports {
        for buffer in LISTS {
            let mut damaged = lent.clone();
            damaged.buffer = at_length(&lent.buffer, buffer);
            lengths_of_a_list(comparison, call, &damaged)?;
        }
    }
    let mut without_buffer = every_call().filter(|call| matches!(call.word, "dscan" | "dcheck" | "restore"));
    without_buffer.try_for_each(|call| lengths_of_a_list(comparison, call, lent))
}

fn lengths_of_a_list(comparison: &mut Comparison, call: Call, lent: &Lent) -> Result<(), Difference> {
    for list in LISTS {
        let mut damaged = lent.clone();
        damaged.list = at_length(&lent.list, list);
        comparison.call(call, &mut damaged)?;
    }
    Ok(())
}
