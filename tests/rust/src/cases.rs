//! Scenarios that leave nothing to chance: every kind of record, and both sides of every bound.

use crate::bench::record::{Record, BASE};
use crate::histories::any::asked;
use crate::histories::CALLS;
use crate::words::INFO;

/// The phases, each with a migration epoch of its range.
const PHASES: [(u64, u64); 4] = [(0, 0), (1, 2), (2, 2), (3, 2)];

/// Every call, each after the same lines.
fn every_call_after(lines: &str) -> String {
    let operands = |call: &str| match call {
        "new" => "2",
        // A part of one page, and a list of one entry; the budget stands last.
        "dscan" => "0 1 9",
        "export" => "0 0 0 9",
        // The page and the mark, or the budget; or the info word of one entry, and the budget.
        _ => "0 9",
    };
    CALLS.iter().map(|call| format!("{lines}{call} {}\n", operands(call))).collect()
}

/// The entry for page 0, for the first place of a list.
const ENTRY_OF_PAGE_0: &str = "entry 0 0x10000000000000\n";

/// One page, with every record that a call may tell from another, in every phase.
pub fn every_kind_of_record() -> String {
    let unused = [5, 28, 64, 8, 32, 129, 7, 255];
    let mut records = Vec::new();
    for state in BASE.into_iter().chain(unused) {
        for bits in 0..4 {
            for stamp in [0, 2, 3, 4] {
                let (dirty, cached) = (bits % 2 == 1, bits / 2 == 1);
                records.push(Record { state, dirty, cached, stamp, epoch: 1 }.word());
            }
        }
        // The same state with a spare bit, at either end of both runs.
        for spare in [10, 15, 48, 63] {
            records.push(Record { state, dirty: true, cached: true, stamp: 2, epoch: 1 }.word() | 1 << spare);
        }
    }
    let mut input = "lend 2\nlist 1\nbuffer 1\npages 1\ncreated 2\n".to_owned();
    for record in records {
        let page = format!("word 0 {record}\nword 1 7\n{ENTRY_OF_PAGE_0}");
        for (phase, epoch) in PHASES {
            let session = format!("phase {phase}\ntlb 3\nepoch {epoch}\n");
            input += &every_call_after(&format!("{session}place 1\ncomplete 1\n{page}"));
        }
        // With a list there is also the page's own epoch to be told from others, and room or none.
        for lists in ["epoch 2\n", "epoch 1\n", "epoch 1\nlist 0\n"] {
            for (phase, call) in [(1, "dscan 0 1 9"), (2, "dcheck 9"), (1, "export 0 0 0 9"), (2, "export 0 0 0 9")] {
                let session = format!("phase {phase}\nplace 0\ncomplete 0\nlist 1\ncontent 0 3\n{lists}");
                input += &format!("{session}{page}{call}\n");
            }
        }
        input += "list 1\n";
    }
    input
}

/// Every field on both sides of its bounds, in every phase, the rest of the session well-formed.
pub fn every_bound_of_the_session() -> String {
    const FIELDS: [(&str, &[u64]); 7] = [
        ("lend", &[0, 1, 2, 3, 5, 6, 8_192, 8_193, 8_194]),
        ("list", &[0, 1, 2, 512, 513, 514]),
        ("buffer", &[0, 1, 2, 513]),
        ("pages", &[0, 1, 3, 4_096, 4_097, u64::MAX]),
        ("tlb", &[0, 1, 65_534, 65_535, 65_536, u64::MAX]),
        ("epoch", &[0, 1, 65_534, 65_535, 65_536, u64::MAX]),
        ("created", &[0, 1, 2, 9, 10, u64::MAX]),
    ];
    const STREAMS: [&str; 10] = [
        "0 0 0 0", "511 511 511 511", "2 5 2 2", "511 512 0 0", "512 512 0 0", "6 5 0 0", "2 5 3 0", "2 5 0 3",
        "0 18446744073709551615 0 0", "18446744073709551615 5 0 0",
    ];
    let mut changes = Vec::new();
    for (field, bounds) in FIELDS {
        changes.extend(bounds.iter().map(|bound| format!("{field} {bound}\n")));
    }
    // The table's length and the page count together, both within their bounds and both past them.
    for pages in [1, 2, 4_095, 4_096, 4_097] {
        changes.push(format!("lend {}\npages {pages}\nplace {pages}\n", 2 * pages));
    }
    for place in [0, 1, 2, 3, u64::MAX] {
        for (complete, failed) in [(0, 0), (0, 1), (1, 0), (1, 1)] {
            changes.push(format!("place {place}\ncomplete {complete}\nfailed {failed}\n"));
        }
    }
    for index in [0, 3, 4, 7] {
        changes.extend(STREAMS.iter().map(|stream| format!("stream {index} {stream}\n")));
    }
    let rest: String = (0..8).map(|index| format!("rest {index}\n")).collect();
    let mut input = String::new();
    for (phase, epoch) in PHASES {
        let session = format!("phase {phase}\npages 2\ntlb 3\nepoch {epoch}\ncreated 5\n");
        for change in &changes {
            let lists = format!("list 1\nbuffer 1\n{ENTRY_OF_PAGE_0}");
            let lines = format!("lend 4\n{lists}{session}place 2\ncomplete 1\nfailed 0\n{rest}{change}");
            input += &every_call_after(&lines);
        }
    }
    input
}

/// An info word from its fields.
fn info(of_format: u64, of_first: u64, of_zero: u64, of_last: u64) -> u64 {
    let [format, first, _, zero, last] = INFO;
    last.with(zero.with(first.with(format.with(0, of_format), of_first), of_zero), of_last)
}

/// Of entries 0 to 3 of a list, the whole; and what is left of it from entry 2 on.
fn whole_and_rest() -> [u64; 2] {
    [info(0, 0, 0, 3), info(0, 2, 0, 3)]
}

/// Every bit of HPA.
fn hpa() -> u64 {
    INFO[2].with(0, u64::MAX)
}

/// The info words of entries 0 to 3 of a list of five, with FIRST or LAST at a bound, on either side, or with a bit that must be 0.
fn infos_at_bounds() -> Vec<u64> {
    const PARTS: [(u64, u64); 12] =
        [(0, 2), (0, 3), (1, 3), (2, 3), (2, 2), (2, 4), (3, 3), (4, 3), (511, 3), (0, 4), (0, 5), (2, 511)];
    let parts = PARTS.map(|(first, last)| info(0, first, 0, last));
    let bits = (1..8).flat_map(|n| [info(n, 2, 0, 3), info(0, 2, n, 3)]);
    parts.into_iter().chain(bits).collect()
}

/// Budgets about the four entries, and far beyond.
const BUDGETS: [u64; 8] = [0, 1, 2, 3, 4, 5, 1 << 32, u64::MAX];

/// Exports of entries 0 to 3 of a list of five, each with one operand or two at a bound, on either side.
fn exports_at_bounds() -> Vec<String> {
    let [whole, rest] = whole_and_rest();
    let mut exports = vec![format!("export 0 0 {} 9\n", hpa() + whole), format!("export 0 1 {} 9\n", hpa() + rest)];
    for stream in [0, 1, 3, 4, 7, 8, 1 << 32, u64::MAX] {
        exports.push(format!("export {stream} 0 {whole} 9\n"));
        exports.push(format!("export {stream} 1 {rest} 9\n"));
    }
    for resume in [0, 1, 2, u64::MAX] {
        exports.extend(infos_at_bounds().iter().map(|info| format!("export 0 {resume} {info} 9\n")));
    }
    for budget in BUDGETS {
        exports.push(format!("export 0 0 {whole} {budget}\n"));
        exports.push(format!("export 0 1 {rest} {budget}\n"));
    }
    exports
}

/// Entries for pages 0 to 4, in their order.
fn five_entries() -> String {
    (0..5).map(|page| format!("entry {page} {}\n", asked(page))).collect()
}

/// On a stream at rest, and on one that was interrupted before entry 2.
pub fn every_bound_of_an_export() -> String {
    let entries = five_entries();
    let pages = "word 0 0x10004\nword 2 2\nword 4 25\nword 6 30\nword 8 27\n";
    let mut input = "lend 10\nnew 5\nstart\ntrack\nlist 5\nbuffer 5\n".to_owned();
    for phase in [1, 2] {
        for stream in ["rest 0", "stream 0 2 3 1 1", "stream 0 2 3 2 2"] {
            for export in exports_at_bounds() {
                input += &format!("phase {phase}\n{stream}\n{pages}{entries}{export}");
            }
        }
    }
    input += "rest 0\n";
    for (length, last) in lists_at_bounds() {
        for buffer in [length.saturating_sub(1), length, length + 1] {
            let info = info(0, 0, 0, last);
            input += &format!("list {length}\nbuffer {buffer}\nexport 0 0 {info} 600\n");
        }
    }
    input
}

/// Lists of every length about the bounds, each with LAST about its end.
fn lists_at_bounds() -> Vec<(u64, u64)> {
    let lasts = |length: u64| [0, length.saturating_sub(2), length.saturating_sub(1), length, 511];
    let lengths = [0, 1, 2, 256, 257, 511, 512, 513, 514];
    lengths.iter().flat_map(|&length| lasts(length).map(|last| (length, last.min(511)))).collect()
}

/// Operands, then entries with each bit of the word by itself, and then lists.
pub fn every_bound_of_a_restore() -> String {
    let entries = five_entries();
    let pages = "word 0 0x100020318\nword 2 0x100000019\nword 4 0x10002021a\nword 6 0x10000001b\nword 8 0x10002001f\n";
    let [whole, rest] = whole_and_rest();
    let infos = infos_at_bounds().into_iter().chain([hpa() + whole, hpa() + rest]).map(|info| (info, 9));
    let budgets = [whole, rest].into_iter().flat_map(|info| BUDGETS.map(|budget| (info, budget)));
    let mut input = "lend 10\nnew 5\nlist 5\n".to_owned();
    for (info, budget) in infos.chain(budgets) {
        input += &format!("{pages}{entries}restore {info} {budget}\n");
    }
    for operation in 0..4u64 {
        for bit in (0..64).map(|bit| 1u64 << bit).chain([0]) {
            input += &format!("{pages}entry 0 {}\nrestore 0 1\n", operation << 52 ^ bit);
        }
    }
    for (length, last) in lists_at_bounds() {
        for first in [0, last.saturating_sub(1), last, last + 1] {
            input += &format!("list {length}\n{pages}{entries}restore {} 600\n", info(0, first, 0, last));
        }
    }
    input
}
