//! The comparison finds what is wrong: benches that differ from document 01 in one thing each.

use chirpsteeple_tests::bench::codes::*;
use chirpsteeple_tests::bench::Answer;
use host_tests::calls::{Bench, Call, FromDocument, Lent};
use host_tests::comparison::Comparison;
use host_tests::run::{part_of, run};

/// What a wrong bench does after the right one.
type Fault = fn(Call, &Lent, &mut Answer, &mut Lent);

struct Wrong {
    fault: Fault,
    calls: usize,
    /// The call from which on it is wrong.
    from: usize,
}

impl Bench for Wrong {
    fn call(&mut self, call: Call, lent: &mut Lent) -> Answer {
        let before = lent.clone();
        let mut answer = FromDocument.call(call, lent);
        self.calls += 1;
        if self.calls >= self.from {
            (self.fault)(call, &before, &mut answer, lent);
        }
        answer
    }
}

/// So many find every fault.
const SEEDS: u64 = 20;

/// What the comparison says of a wrong bench, if it finds that it is.
fn found(from: usize, fault: Fault) -> Option<String> {
    found_with(SEEDS, from, fault)
}

fn found_with(seeds: u64, from: usize, fault: Fault) -> Option<String> {
    let wrong = &mut Wrong { fault, calls: 0, from };
    let mut comparison = Comparison::new(wrong);
    (0..seeds).find_map(|seed| run(&mut comparison, seed).err()).map(|difference| difference.to_string())
}

fn flip(bytes: &mut [u8], at: usize) {
    if let Some(byte) = bytes.get_mut(at) {
        *byte ^= 1;
    }
}

#[test]
fn one_bit_of_one_record_after_a_thousand_calls() {
    let flips: Fault = |_, before, _, lent| flip(&mut lent.table, before.table.len().wrapping_sub(15));
    let said = found(1_001, flips).expect("the bit is found");
    assert!(said.starts_with("seed 0, call 1001: "), "{said}");
    for part in ["lent: session of ", "session before, by words: ", "  table: word ", " found 0x", " expected 0x"] {
        assert!(said.contains(part), "{part}: {said}");
    }
    for part in ["answer:", "session: ", "list: ", "buffer: "] {
        assert!(!said.contains(part), "{part}: {said}");
    }
}

#[test]
fn a_code_in_another_place() {
    let said = found(1, |_, _, answer, _| {
        if answer.code == UNEXPORTED_MEMORY_REMAINS {
            answer.code = EXPORTED_DIRTY_PAGES_REMAIN;
        }
    })
    .expect("the code is found");
    assert!(said.contains(": token\n") && said.contains("Answer { code: 53,") && said.contains("Answer { code: 54,"));
}

#[test]
fn a_right_bench_is_not_found() {
    assert_eq!(found_with(part_of(SEEDS), 1, |_, _, _, _| ()), None);
}

/// Faults that show in few calls, or deep in a history.
const FAULTS: [(&str, Fault); 10] = [
    ("a refusal writes the session's last byte", |_, _, answer, lent| {
        if answer.code == MIGRATION_EPOCH_OVERFLOW {
            flip(&mut lent.session, 383);
        }
    }),
    ("a refused export writes its buffer", |_, _, answer, lent| {
        if answer.code == INVALID_RESUMPTION {
            flip(&mut lent.buffer, 0);
        }
    }),
    ("a ragged list is refused before the phase", |call, before, answer, _| {
        if call.word == "dscan" && answer.code == OP_STATE_INCORRECT && before.list.len() % 8 != 0 {
            answer.code = OPERAND_INVALID;
        }
    }),
    ("resume 2 is taken as 1", |call, before, answer, lent| {
        if call.word == "export" && call.numbers[1] == 2 {
            let [stream, _, info, budget] = call.numbers;
            *lent = before.clone();
            *answer = FromDocument.call(Call::new("export", &[stream, 1, info, budget]), lent);
        }
    }),
    ("errors of a resumed export are one short", |call, _, answer, _| {
        if call.word == "export" && call.numbers[1] == 1 {
            answer.errors = answer.errors.saturating_sub(1);
        }
    }),
    ("a scan clears the word behind its list's last", |call, _, answer, lent| {
        if call.word == "dscan" && answer.code == INTERRUPTED {
            flip(&mut lent.list, 8 * (answer.last as usize + 1));
        }
    }),
    ("the token names a page beyond 1,000 wrongly", |_, _, answer, _| {
        if answer.page > 1_000 {
            answer.page -= 1;
        }
    }),
    ("a refused scan says 511", |call, _, answer, _| {
        if call.word == "dcheck" && answer.code == MEM_SCAN_RESET_REQUIRED {
            answer.first = 511;
        }
    }),
    ("RESTORE keeps the page's epoch", |call, before, answer, lent| {
        if call.word == "restore" && answer.code < MALFORMED {
            // Of each page's sixteen bytes, those of bits 47:32 of word 0.
            for (was, is) in before.table.chunks(16).zip(lent.table.chunks_mut(16)) {
                is[4..6].copy_from_slice(&was[4..6]);
            }
        }
    }),
    ("a table of 65,536 bytes is refused", |call, before, answer, lent| {
        if call.word == "write" && before.table.len() == 65_536 && answer.code == DONE {
            *answer = Answer { code: MALFORMED, ..Answer::default() };
            *lent = before.clone();
        }
    }),
];

#[test]
fn faults_of_every_kind() {
    for (name, fault) in FAULTS {
        assert!(found(1, fault).is_some(), "not found: {name}");
    }
}
