//! The rows: every operation that is measured or counted, with what it is lent.

use crate::guests::{self, *};
use crate::straightforward;
use crate::work::{Meter, Work};
use chirpsteeple_tests::bench::codes::*;
use host_tests::interface;

/// The same call of the library and of straightforward Rust: by its name and its numbers where it is lent session and table, else written out, with the
/// name that stands for either.
macro_rules! both {
    ($call:ident($step:pat_param => $($number:expr),*)) => {
        both!(calls, |guest, $step| calls::$call(&mut guest.session[..], &mut guest.table[..], $($number),*))
    };
    ($calls:ident, |$guest:ident, $step:pat_param| $body:expr) => {
        (
            {
                use interface as $calls;
                |$guest: &mut Guest, $step: u64| $body
            },
            {
                use straightforward as $calls;
                |$guest: &mut Guest, $step: u64| $body
            },
        )
    };
}

/// Tables on which calls must cost the same that look at a page or two: by name, and how many guests and pages there are.
const SIZES: [(&str, usize, usize); 2] = [("4,096 pages", 1, PAGES), ("16 pages", 16, 16)];

pub fn rows(meter: &mut impl Meter) {
    for (name, guests, pages) in SIZES {
        one_page(meter, name, |records| vec![Guest::new(LIVE, pages, &records[..1]); guests]);
    }
    one_page(meter, "4,096 pages, mixed", |records| vec![Guest::new(LIVE, PAGES, records)]);
    blind(meter);
    for pages in [Pages::Alike, Pages::Mixed] {
        sweeps(meter, pages);
        lists(meter, pages);
        tokens(meter, pages);
    }
    for (name, guests, pages) in SIZES {
        let guest = |phase, record| Guest::new(phase, pages, &[record]).with_entries();
        short_lists(meter, name, |phase, record| vec![guest(phase, record); guests]);
        refusals(meter, name, guest);
    }
}

/// How the pages of a guest of 4,096 pages are picked from the records that a call can meet.
#[derive(Clone, Copy)]
enum Pages {
    /// All have the first of the records.
    Alike,
    Mixed,
}

impl Pages {
    fn guest(self, phase: u64, records: &[u64]) -> Guest {
        match self {
            Pages::Alike => Guest::new(phase, PAGES, &records[..1]),
            Pages::Mixed => Guest::new(phase, PAGES, records),
        }
    }

    fn work(self, name: &str, given: Guest, code: u64) -> Work {
        let kind = match self {
            Pages::Alike => "alike",
            Pages::Mixed => "mixed",
        };
        Work { name: format!("{name} ({kind})"), given: vec![given], steps: 1, code }
    }
}

/// Each call on one page, for every page in turn. `guests` makes guests of the records that the call takes.
fn one_page(meter: &mut impl Meter, kind: &str, guests: impl Fn(&[u64]) -> Vec<Guest>) {
    let work = |name: &str, records: &[u64]| {
        let given = guests(records);
        let steps = given[0].pages() as u64;
        Work { name: format!("{name} ({kind})"), given, steps, code: DONE }
    };
    let written = [4, 24, 25].map(record);
    let blocked = [1, 3, 26, 31].map(record);
    meter.row(work("write, the first to a page", &written), both!(write(page => page, 5)));
    meter.row(work("write again", &written.map(|record| record | DIRTY | CACHED)), both!(write(page => page, 5)));
    meter.row(work("add", &[record(0), record(0) | MIGRATED]), both!(add(page => page)));
    meter.row(work("accept", &[2, 29, 30].map(record)), both!(accept(page => page)));
    meter.row(work("block", &[4, 2, 24, 25, 29, 30].map(record)), both!(block(page => page)));
    meter.row(work("unblock", &blocked), both!(unblock(page => page)));
    meter.row(work("remove", &blocked), both!(remove(page => page)));
}

/// The calls to which it is all one what the pages are.
fn blind(meter: &mut impl Meter) {
    let given = vec![Guest::new(LIVE, PAGES, &[record(4)]).checked_to(9)];
    let work = |name: &str, steps| Work { name: name.into(), given: given.clone(), steps, code: DONE };
    meter.row(work("new (4,096 pages)", 1), both!(new(_ => 9)));
    meter.row(work("new epoch", 256), both!(new_epoch(_ =>)));
    meter.row(work("reset", 256), both!(reset(_ =>)));
    // A session takes one abort, so there are many; with small tables, so that all of them stay in the processor's caches.
    let aborted = vec![Guest::new(LIVE, 16, &[record(24)]).checked_to(9); 64];
    meter.row(Work { name: "abort".into(), given: aborted, steps: 1, code: DONE }, both!(abort(_ =>)));
}

/// The calls that change every page.
fn sweeps(meter: &mut impl Meter, pages: Pages) {
    let unblocked = [4, 2, 24, 25, 0, 27, 29, 30].map(record);
    let mut met = unblocked.map(|record| record | CACHED).to_vec();
    met.extend(unblocked);
    met.push(record(4) | SPARE);
    meter.row(pages.work("track", pages.guest(LIVE, &met), DONE), both!(track(_ =>)));
    meter.row(pages.work("start", pages.guest(IDLE, &[4, 2, 0, 1, 3].map(record)), DONE), both!(start(_ =>)));
    meter.row(pages.work("pause", pages.guest(LIVE, &met), DONE), both!(pause(_ =>)));
    let blocked = pages.guest(LIVE, &met).with_last_record(record(1));
    meter.row(pages.work("pause refused, 48 at the last page", blocked, BLOCKED_MEMORY_EXISTS), both!(pause(_ =>)));
}

/// Scans of 4,096 pages, and exports and RESTOREs of the pages in turn, 512 to a list.
fn lists(meter: &mut impl Meter, pages: Pages) {
    const PAGES: u64 = guests::PAGES as u64;
    let listed = [record(4), record(2), record(25), record(24) | DIRTY, record(27), record(30), record(29) | DIRTY];
    let unlisted = [24, 29, 0].map(record);
    let dscan_all = both!(calls, |guest, _| {
        let mut next = 0;
        std::array::from_fn::<_, LISTS, _>(|call| {
            let list = part(&mut guest.list, call as u64, ENTRIES);
            let answer = calls::dscan(&mut guest.session[..], &mut guest.table[..], next, PAGES - next, list, PAGES);
            next = answer.next;
            answer
        })
    });
    let dcheck_all = both!(calls, |guest, _| {
        std::array::from_fn::<_, LISTS, _>(|call| {
            calls::dcheck(
                &mut guest.session[..],
                &mut guest.table[..],
                part(&mut guest.list, call as u64, ENTRIES),
                PAGES,
            )
        })
    });
    let dscan = both!(calls, |guest, _| {
        calls::dscan(&mut guest.session[..], &mut guest.table[..], 0, PAGES, part(&mut guest.list, 0, ENTRIES), PAGES)
    });
    let dcheck = both!(calls, |guest, _| {
        calls::dcheck(&mut guest.session[..], &mut guest.table[..], part(&mut guest.list, 0, ENTRIES), PAGES)
    });
    let export = both!(calls, |guest, call| {
        let (list, buffer) = (part(&mut guest.list, call, ENTRIES), part(&mut guest.buffer, call, ENTRIES));
        calls::export(&mut guest.session[..], &mut guest.table[..], list, buffer, 0, 0, 511 << 55, 512)
    });
    let restore = both!(calls, |guest, call| {
        let list = part(&mut guest.list, call, ENTRIES);
        calls::restore(&mut guest.session[..], &mut guest.table[..], list, 511 << 55, 512)
    });
    let exported = pages.guest(LIVE, &[4, 25].map(record)).with_entries();
    let aborted = pages.guest(IDLE, &[24, 25, 26, 27, 29, 30, 31].map(record)).with_entries();
    let work = |name, phase, records: &[u64], code| pages.work(name, pages.guest(phase, records).with_lists(), code);
    meter.row(work("DSCAN, all listed", LIVE, &listed, DONE), dscan_all);
    meter.row(work("DSCAN, none listed", LIVE, &unlisted, DONE), dscan);
    meter.row(work("DCHECK, all listed", BLACKOUT, &listed, CHECK_COMPLETE), dcheck_all);
    meter.row(work("DCHECK, none listed", BLACKOUT, &unlisted, CHECK_COMPLETE), dcheck);
    meter.row(Work { steps: LISTS as u64, ..pages.work("export of 512 data entries", exported, DONE) }, export);
    meter.row(Work { steps: LISTS as u64, ..pages.work("RESTORE of 512 entries", aborted, DONE) }, restore);
}

/// The token for a guest that is exported, but for its last page where it is refused.
fn tokens(meter: &mut impl Meter, pages: Pages) {
    let exported = pages.guest(BLACKOUT, &[24, 29, 0].map(record)).checked_to(PAGES);
    let mut row = |name, last, code| {
        meter.row(pages.work(name, exported.clone().with_last_record(last), code), both!(start_token(_ =>)))
    };
    row("token granted", record(24), DONE);
    row("token refused, 53 at the last page", record(25), EXPORTED_DIRTY_PAGES_REMAIN);
    row("token refused, 54 at the last page", record(4), UNEXPORTED_MEMORY_REMAINS);
}

/// Calls by list that list or take one page, for every page in turn. `guests` makes guests of pages with one record, with a list and a buffer.
fn short_lists(meter: &mut impl Meter, size: &str, guests: impl Fn(u64, u64) -> Vec<Guest>) {
    let work = |name: &str, phase, state, code| {
        let given = guests(phase, record(state));
        let steps = given[0].pages() as u64;
        Work { name: format!("{name} ({size})"), given, steps, code }
    };
    let export = both!(calls, |guest, page| {
        let (list, buffer) = (part(&mut guest.list, page, 1), part(&mut guest.buffer, page, 1));
        calls::export(&mut guest.session[..], &mut guest.table[..], list, buffer, 0, 0, 0, 1)
    });
    let restore = both!(calls, |guest, page| {
        calls::restore(&mut guest.session[..], &mut guest.table[..], part(&mut guest.list, page, 1), 0, 1)
    });
    let dscan = both!(calls, |guest, page| {
        calls::dscan(&mut guest.session[..], &mut guest.table[..], page, 1, part(&mut guest.list, page, 1), 1)
    });
    let dcheck = both!(calls, |guest, page| {
        calls::dcheck(&mut guest.session[..], &mut guest.table[..], part(&mut guest.list, page, 1), PAGES as u64)
    });
    meter.row(work("export of 1 entry", LIVE, 4, DONE), export);
    meter.row(work("RESTORE of 1 entry", IDLE, 24, DONE), restore);
    meter.row(work("DSCAN of 1 page", LIVE, 4, DONE), dscan);
    // Each check stops at the page behind the one that it lists; behind the last page there is none.
    let checks = work("DCHECK with room for 1", BLACKOUT, 4, LIST_FULL);
    meter.row(Work { steps: checks.steps - 1, ..checks }, dcheck);
}

/// Calls that are refused before they look at more than a page, one for each code; the page is the last. `guest` makes a guest of pages with one
/// record, with a list and a buffer.
fn refusals(meter: &mut impl Meter, size: &str, guest: impl Fn(u64, u64) -> Guest) {
    let work = |call: &str, given: Guest, code| Work {
        name: format!("{call} refused, {code} ({size})"),
        given: vec![given],
        steps: 256,
        code,
    };
    let live = guest(LIVE, record(4));
    let paused = guest(BLACKOUT, record(4));
    let pages = live.pages();
    let (last, beyond) = (pages as u64 - 1, pages as u64);
    let dscan = both!(calls, |guest, _| {
        calls::dscan(&mut guest.session[..], &mut guest.table[..], last, 2, &mut guest.list[..8], 2)
    });
    let resumed = both!(calls, |guest, _| {
        let (list, buffer) = (&mut guest.list[..8], &mut guest.buffer[..8]);
        calls::export(&mut guest.session[..], &mut guest.table[..], list, buffer, 0, 1, 0, 1)
    });
    let dcheck = both!(calls, |guest, _| {
        calls::dcheck(&mut guest.session[..], &mut guest.table[..], &mut guest.list[..8], 1)
    });
    meter.row(work("write", live.clone().malformed(), MALFORMED), both!(write(_ => last, 5)));
    meter.row(work("write", paused.clone(), OP_STATE_INCORRECT), both!(write(_ => last, 5)));
    meter.row(work("write", live.clone(), OPERAND_INVALID), both!(write(_ => beyond, 5)));
    meter.row(work("DSCAN", live.clone(), OPERAND_INVALID), dscan);
    meter.row(work("new epoch", live.clone().interrupted(), OPERAND_BUSY), both!(new_epoch(_ =>)));
    meter.row(work("export", live.clone(), INVALID_RESUMPTION), resumed);
    meter.row(work("write", guest(LIVE, record(0)), EPT_ENTRY_STATE_INCORRECT), both!(write(_ => last, 5)));
    meter.row(work("unblock", live.clone(), GPA_RANGE_NOT_BLOCKED), both!(unblock(_ => last)));
    meter.row(work("unblock", guest(LIVE, UNTRACKED), TLB_TRACKING_NOT_DONE), both!(unblock(_ => last)));
    meter.row(work("block", paused.clone(), BLOCKING_DISALLOWED), both!(block(_ => last)));
    meter.row(work("DCHECK", paused.clone().checked_to(pages), MEM_SCAN_RESET_REQUIRED), dcheck);
    meter.row(work("token", paused, MEM_SCAN_DCHECK_NOT_DONE), both!(start_token(_ =>)));
    meter.row(work("new epoch", live.clone().at_the_last_epochs(), MIGRATION_EPOCH_OVERFLOW), both!(new_epoch(_ =>)));
    meter.row(work("track", live.at_the_last_epochs(), TLB_EPOCH_AT_LIMIT), both!(track(_ =>)));
}
