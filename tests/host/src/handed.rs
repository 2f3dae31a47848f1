//! Sessions and tables that are well-formed, whether a history reaches them or not, and calls on them.

use crate::calls::{Call, Lent};
use crate::comparison::{Comparison, Difference};
use crate::strays::{any_call, new_lists, put, whole_list};
use chirpsteeple_tests::bench::session::{Phase, Session};
use chirpsteeple_tests::histories::any::{record, well_formed};
use chirpsteeple_tests::random::Random;

pub fn handed(comparison: &mut Comparison, random: &mut Random) -> Result<(), Difference> {
    let pages = match random.below(16) {
        0 => 4_096,
        1 | 2 => 1 + random.below(600),
        _ => 1 + random.below(8),
    };
    let session = well_formed(random, pages);
    let table: Vec<u64> = match random.one_in(2) {
        true => (0..pages).flat_map(|_| [record(random, &session), random.word()]).collect(),
        false => (0..pages).flat_map(|_| [untroubled(random, &session), random.word()]).collect(),
    };
    let mut lent = Lent::of_session(&session, &table, &[], &[]);
    for _ in 0..random.below(3) {
        let page = random.below(pages) as usize;
        put(&mut lent.table, 2 * page, record(random, &session));
    }
    new_lists(random, &mut lent);
    for call in over_all_pages(session.phase, pages, &lent) {
        comparison.call(call, &mut lent.clone())?;
    }
    for _ in 0..4 {
        new_lists(random, &mut lent);
        let call = any_call(random, &lent);
        comparison.call(call, &mut lent)?;
    }
    Ok(())
}

/// The calls that look at every page: the one by which the phase is left, and the scan that it has; in Idle a restore of the list.
fn over_all_pages(phase: Phase, pages: u64, lent: &Lent) -> Vec<Call> {
    let leaving = match phase {
        Phase::Idle => "start",
        Phase::Live => "pause",
        Phase::Blackout | Phase::Done => "token",
    };
    let scan = match phase {
        Phase::Idle => Call::new("restore", &[whole_list(lent), u64::MAX]),
        Phase::Live => Call::new("dscan", &[0, pages, u64::MAX]),
        _ => Call::new("dcheck", &[u64::MAX]),
    };
    vec![Call::new(leaving, &[]), scan]
}

/// A record that is not in the way of start, pause or token, whichever the phase is before; so that one page may decide.
fn untroubled(random: &mut Random, session: &Session) -> u64 {
    match session.phase {
        Phase::Idle => random.below(5),
        Phase::Live => random.pick(&[0, 2, 4, 24, 25, 27, 29, 30]),
        Phase::Blackout | Phase::Done => random.pick(&[0, 24, 29]),
    }
}
