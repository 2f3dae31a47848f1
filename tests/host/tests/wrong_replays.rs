//! Demand 3 finds what is wrong: benches that differ from document 01 in one thing each, of which a watcher knows nothing but calls and answers.

use chirpsteeple_tests::bench::codes::{DONE, UNEXPORTED_MEMORY_REMAINS};
use chirpsteeple_tests::bench::record::Record;
use chirpsteeple_tests::bench::session::Phase;
use chirpsteeple_tests::bench::Answer;
use host_tests::calls::{Bench, Call, FromDocument, Lent};
use host_tests::guests::{history, SEEDS};
use host_tests::play::Play;
use host_tests::run::part_of;
use host_tests::strays::put;
use host_tests::watcher::{refused, word};

/// What a wrong bench does after the right one, which was lent the first and left the last.
type Fault = fn(Call, &Lent, &mut Answer, &mut Lent);

/// The right one but for the fault, which is not asked about calls that refuse; those that it may grant in their place are an exception.
struct Wrong(Fault);

impl Bench for Wrong {
    fn call(&mut self, call: Call, lent: &mut Lent) -> Answer {
        let before = lent.clone();
        let mut answer = FromDocument.call(call, lent);
        if !refused(&answer) || matches!(call.word, "export" | "unblock" | "remove" | "start" | "token") {
            (self.0)(call, &before, &mut answer, lent);
        }
        answer
    }
}

/// After how many histories a wrong bench was found, and what was said of it.
fn found(seeds: u64, fault: Fault, earning: bool) -> Option<(u64, String)> {
    let wrong = &mut Wrong(fault);
    let mut play = Play::new(wrong);
    let broken = |seed| history(&mut play, seed, earning).err().map(|broken| (seed + 1, broken.to_string()));
    (0..seeds).find_map(broken)
}

fn all_found(faults: &[(&str, Fault)], earning: bool) {
    for (name, fault) in faults {
        let (histories, said) = found(SEEDS, *fault, earning).unwrap_or_else(|| panic!("not found: {name}"));
        println!("{name}: history {histories}, {}", said.lines().next().unwrap());
    }
}

fn record(lent: &Lent, page: usize) -> Record {
    Record::of(word(&lent.table, 2 * page)).expect("a record that is not strange")
}

/// Changes every record.
fn change(lent: &mut Lent, change: impl Fn(usize, Record) -> Record) {
    for page in 0..lent.table.len() / 16 {
        let changed = change(page, record(lent, page));
        put(&mut lent.table, 2 * page, changed.word());
    }
}

/// Changes the record of the page that the call is on.
fn change_one(call: Call, lent: &mut Lent, changed: impl Fn(Record) -> Record) {
    let at = call.numbers[0] as usize;
    change(lent, |page, record| if page == at { changed(record) } else { record });
}

/// Makes the call again, with another number in this place of the session; what was there comes back into its place.
fn again_with(at: usize, number: u64, call: Call, before: &Lent, answer: &mut Answer, lent: &mut Lent) {
    *lent = before.clone();
    put(&mut lent.session, at, number);
    *answer = FromDocument.call(call, lent);
    put(&mut lent.session, at, word(&before.session, at));
}

/// Makes the call again, with the pages that are in one state in another.
fn again_as(state: u64, other: u64, call: Call, before: &Lent, answer: &mut Answer, lent: &mut Lent) {
    *lent = before.clone();
    change(lent, |_, found| if found.state == state { Record { state: other, ..found } } else { found });
    *answer = FromDocument.call(call, lent);
}

/// The places of phase, TLB epoch and migration epoch in a session.
const PHASE: usize = 0;
const TLB_EPOCH: usize = 2;
const MIGRATION_EPOCH: usize = 3;

/// Each of them lets a destination differ from the guest, or an epoch have a page twice.
const FAULTS: [(&str, Fault); 9] = [
    ("no status 7 for CANCEL", |call, before, answer, lent| {
        if call.word == "export" {
            let now = word(&before.session, MIGRATION_EPOCH);
            let cancelled = |record: Record| matches!(record.state, 26 | 27 | 31);
            *lent = before.clone();
            change(lent, |_, found| match cancelled(found) && found.epoch == now {
                true => Record { epoch: 0, ..found },
                false => found,
            });
            *answer = FromDocument.call(call, lent);
            change(lent, |page, left| match cancelled(left) {
                true => Record { epoch: record(before, page).epoch, ..left },
                false => left,
            });
        }
    }),
    ("the epoch is forgotten on remove and add", |call, _, answer, lent| {
        if matches!(call.word, "remove" | "add") && answer.code == DONE {
            change_one(call, lent, |left| Record { epoch: 0, ..left });
        }
    }),
    ("a stamp equal to the TLB epoch counts as tracked", |call, before, answer, lent| {
        if matches!(call.word, "export" | "unblock" | "remove") {
            let above = word(&before.session, TLB_EPOCH) + 1;
            again_with(TLB_EPOCH, above, call, before, answer, lent);
        }
    }),
    ("track keeps Cached", |call, before, _, lent| {
        if call.word == "track" {
            change(lent, |page, left| Record { cached: record(before, page).cached, ..left });
        }
    }),
    ("26 is unblocked to 24", |call, before, answer, lent| {
        if call.word == "unblock" && answer.code == DONE && record(before, call.numbers[0] as usize).state == 26 {
            change_one(call, lent, |left| Record { state: 24, ..left });
        }
    }),
    ("29 is accepted to 24", |call, before, _, lent| {
        if call.word == "accept" && record(before, call.numbers[0] as usize).state == 29 {
            change_one(call, lent, |left| Record { state: 24, ..left });
        }
    }),
    ("27 is not counted by 53", |call, before, answer, lent| {
        if call.word == "token" {
            again_as(27, 0, call, before, answer, lent);
            lent.table = before.table.clone();
        }
    }),
    ("start takes 24", |call, before, answer, lent| {
        if call.word == "start" {
            again_as(24, 4, call, before, answer, lent);
            change(lent, |page, left| match record(before, page).state {
                24 => Record { state: 24, ..left },
                _ => left,
            });
        }
    }),
    ("a listed 24 stays 24", |call, before, _, lent| {
        if matches!(call.word, "dscan" | "dcheck") {
            change(lent, |page, left| match (record(before, page).state, left.state) {
                (24, 25) => Record { state: 24, ..left },
                _ => left,
            });
        }
    }),
];

#[test]
fn faults_that_spoil_a_destination() {
    all_found(&FAULTS, false);
}

/// Each of them withholds a token that was earned.
const WITHHOLDING: [(&str, Fault); 4] = [
    ("the token never comes", |call, before, answer, lent| {
        if call.word == "token" && answer.code == DONE {
            *answer = Answer { code: UNEXPORTED_MEMORY_REMAINS, ..Answer::default() };
            *lent = before.clone();
        }
    }),
    ("Blackout asks for tracking", |call, before, answer, lent| {
        if call.word == "export" && word(&before.session, PHASE) == Phase::Blackout as u64 {
            again_with(PHASE, Phase::Live as u64, call, before, answer, lent);
        }
    }),
    ("start keeps the pages' epochs", |call, before, _, lent| {
        if call.word == "start" {
            change(lent, |page, left| Record { epoch: record(before, page).epoch, ..left });
        }
    }),
    ("a new epoch is the old one", |call, before, _, lent| {
        if call.word == "newepoch" {
            *lent = before.clone();
        }
    }),
];

#[test]
fn faults_that_withhold_the_token() {
    all_found(&WITHHOLDING, true);
}

#[test]
fn a_right_bench_is_not_found() {
    let right: Fault = |_, _, _, _| ();
    assert_eq!([false, true].map(|earning| found(part_of(SEEDS), right, earning)), [None, None]);
}
