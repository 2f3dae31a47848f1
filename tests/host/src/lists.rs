//! Lists of every length, each filled by a scan, exported as far as it goes, and restored after an abort.

use crate::calls::{Call, Lent};
use crate::comparison::{Comparison, Difference};
use chirpsteeple_tests::bench::record::Record;
use chirpsteeple_tests::bench::session::{Check, Phase, Session};
use chirpsteeple_tests::bench::MOST_ENTRIES;
use chirpsteeple_tests::words::INFO;

/// More pages than the longest list has room for, all of which are listed.
const PAGES: u64 = MOST_ENTRIES as u64 + 4;

pub fn lists_of_every_length(comparison: &mut Comparison) -> Result<(), Difference> {
    for (phase, scan) in
        [(Phase::Live, Call::new("dscan", &[1, PAGES - 1, PAGES])), (Phase::Blackout, Call::new("dcheck", &[PAGES]))]
    {
        for length in 0..=MOST_ENTRIES + 1 {
            let mut lent = all_listed(phase, length);
            comparison.call(scan, &mut lent)?;
            comparison.call(Call::new("track", &[]), &mut lent)?;
            let [_, _, _, _, last] = INFO;
            let info = last.with(0, length.saturating_sub(1) as u64);
            comparison.call(Call::new("export", &[0, 0, info, PAGES]), &mut lent)?;
            comparison.call(Call::new("abort", &[]), &mut lent)?;
            comparison.call(Call::new("restore", &[info, PAGES]), &mut lent)?;
        }
    }
    Ok(())
}

fn all_listed(phase: Phase, length: usize) -> Lent {
    let streams = Session::STREAMS_AT_REST;
    let session = Session { phase, pages: PAGES, tlb: 3, epoch: 2, created: 2, check: Check::RESET, streams };
    let record = |state| Record { state, dirty: state == 24, cached: false, stamp: 1, epoch: 1 }.word();
    let table: Vec<u64> =
        (0..PAGES).flat_map(|page| [record([4, 2, 25, 24, 30, 27][page as usize % 6]), 1_000 + page]).collect();
    Lent::of_session(&session, &table, &vec![5; length], &vec![6; length])
}
