//! What a comparison has met: without it, one might compare little and not show it.

use crate::bench::codes::{DONE, INTERRUPTED};
use crate::bench::Answer;
use crate::histories::CALLS;
use crate::words::{ENTRY, INFO};
use std::collections::BTreeMap;

/// The codes that document 01 gives each call, in the order of `CALLS`. 40 is for all. 41 is for all but New, which comes in any phase; block has 49 beside it. 42 is for those with an operand that may be wrong.
pub const CODES: [&[u64]; 18] = [
    // new
    &[0, 40, 42],
    // write, add, accept
    &[0, 40, 41, 42, 45],
    &[0, 40, 41, 42, 45],
    &[0, 40, 41, 42, 45],
    // block
    &[0, 40, 41, 42, 45, 49],
    // unblock, remove
    &[0, 40, 41, 42, 45, 46, 47],
    &[0, 40, 41, 42, 45, 46, 47],
    // track
    &[0, 40, 41, 56],
    // start
    &[0, 40, 41, 45],
    // pause
    &[0, 40, 41, 43, 48],
    // abort
    &[0, 40, 41],
    // newepoch
    &[0, 40, 41, 43, 55],
    // dscan
    &[0, 1, 2, 40, 41, 42],
    // dcheck, which ends with 3 and not with 0
    &[1, 2, 3, 40, 41, 42, 50, 51],
    // reset
    &[0, 40, 41],
    // export
    &[0, 1, 40, 41, 42, 44],
    // restore
    &[0, 1, 40, 41, 42],
    // token
    &[0, 40, 41, 43, 52, 53, 54],
];

/// What becomes of the entries of a call by list, whose info word stands in a place among its numbers: the numbers that a field comes back with.
struct Outcome {
    call: &'static str,
    info: usize,
    field: &'static str,
    numbers: &'static [u64],
}

const OUTCOMES: [Outcome; 4] = [
    Outcome { call: "export", info: 2, field: "status", numbers: &[0, 1, 2, 4, 5, 7, 15, 17] },
    Outcome { call: "export", info: 2, field: "operation", numbers: &[0, 1, 2, 3] },
    Outcome { call: "restore", info: 0, field: "status", numbers: &[0, 1, 2, 4, 15] },
    Outcome { call: "restore", info: 0, field: "operation", numbers: &[0, 1] },
];

/// How often each number was met.
type Times = BTreeMap<u64, usize>;

#[derive(Default)]
pub struct Met {
    codes: [Times; 18],
    outcomes: [Times; OUTCOMES.len()],
}

impl Met {
    /// A call of the name `word` with its answer.
    pub fn call(&mut self, word: &str, answer: &Answer) {
        let call = CALLS.iter().position(|call| *call == word).unwrap_or_else(|| panic!("{word} is no call"));
        *self.codes[call].entry(answer.code).or_default() += 1;
    }

    /// The same call with its numbers, and its list afterwards; without a list it took no entries.
    pub fn entries(&mut self, word: &str, numbers: &[u64], answer: &Answer, list: &[u64]) {
        for (outcome, met) in OUTCOMES.iter().zip(&mut self.outcomes).filter(|(outcome, _)| outcome.call == word) {
            let field = ENTRY.iter().find(|run| run.name == outcome.field).unwrap();
            for &entry in taken(numbers[outcome.info], answer, list) {
                *met.entry(field.of(entry)).or_default() += 1;
            }
        }
    }

    pub fn calls(&self) -> usize {
        self.codes.iter().flat_map(|codes| codes.values()).sum()
    }

    /// What can be met and was not at least `times` times, and what was met and cannot be.
    pub fn faults(&self, times: usize) -> Vec<String> {
        let mut faults = Vec::new();
        for ((call, codes), met) in CALLS.iter().zip(CODES).zip(&self.codes) {
            faults.extend(between(&format!("{call} with code"), codes, met, times));
        }
        for (Outcome { call, field, numbers, .. }, met) in OUTCOMES.iter().zip(&self.outcomes) {
            faults.extend(between(&format!("{call} of an entry with {field}"), numbers, met, times));
        }
        faults
    }

    /// Calls down, codes across, and a line each for the outcomes of entries.
    pub fn table(&self) -> String {
        let codes: Vec<u64> = (0..=3).chain(40..=56).collect();
        let mut lines = vec![row("", codes.iter().map(|code| code.to_string()))];
        for (call, met) in CALLS.iter().zip(&self.codes) {
            let cell = |code| met.get(code).map_or(".".to_owned(), |times| times.to_string());
            lines.push(row(call, codes.iter().map(cell)));
        }
        for (Outcome { call, field, .. }, met) in OUTCOMES.iter().zip(&self.outcomes) {
            let cells: Vec<String> = met.iter().map(|(number, times)| format!("{number}: {times}")).collect();
            lines.push(format!("{call:9}{field:10}{}", cells.join(", ")));
        }
        lines.join("\n")
    }
}

fn row(head: &str, cells: impl Iterator<Item = String>) -> String {
    cells.fold(format!("{head:9}"), |row, cell| row + &format!("{cell:>8}"))
}

fn between(what: &str, expected: &[u64], met: &Times, times: usize) -> Vec<String> {
    let of = |number| met.get(number).copied().unwrap_or(0);
    let rare = expected.iter().filter(|number| of(number) < times);
    let wrong = met.keys().filter(|number| !expected.contains(number));
    rare.map(|number| format!("{what} {number} was met {} times", of(number)))
        .chain(wrong.map(|number| format!("{what} {number} was met, which document 01 does not have")))
        .collect()
}

/// The entries that a call by list took. Its FIRST is where it began, also in a new export, where it is 0.
fn taken<'a>(info: u64, answer: &Answer, list: &'a [u64]) -> &'a [u64] {
    let [_, first, _, _, last] = INFO;
    let end = match answer.code {
        DONE => last.of(info) + 1,
        INTERRUPTED => first.of(answer.info),
        _ => return &[],
    };
    &list[first.of(info) as usize..end as usize]
}

#[cfg(test)]
mod tests {
    use super::*;

    #[test]
    fn what_is_missing_and_what_cannot_be_is_told() {
        let mut met = Met::default();
        for (call, codes) in CALLS.iter().zip(CODES) {
            for &code in codes {
                met.call(call, &Answer { code, ..Answer::default() });
            }
        }
        for (outcome, times) in OUTCOMES.iter().zip(&mut met.outcomes) {
            times.extend(outcome.numbers.iter().map(|&number| (number, 1)));
        }
        assert_eq!(met.faults(1), Vec::<String>::new());
        assert!(met.faults(2).contains(&"token with code 54 was met 1 times".to_owned()));
        met.call("dcheck", &Answer::default());
        assert_eq!(met.faults(1), ["dcheck with code 0 was met, which document 01 does not have"]);
        met.codes[0].remove(&42);
        assert_eq!(met.faults(1).first().unwrap(), "new with code 42 was met 0 times");
        met.outcomes[0].remove(&17);
        assert_eq!(met.faults(1).last().unwrap(), "export of an entry with status 17 was met 0 times");
        met.outcomes[3].insert(3, 1);
        let wrong = "restore of an entry with operation 3 was met, which document 01 does not have";
        assert_eq!(met.faults(1).last().unwrap(), wrong);
    }
}
