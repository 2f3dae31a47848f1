//! The words of document 01, bit by bit: a word is 64 bits, and a run `hi:lo` is some of them in a row.

/// Bit `i` of a word.
fn bit(w: u64, i: u32) -> u64 {
    (w >> i) % 2
}

/// The number in bits hi:lo, highest bit first.
pub fn run(w: u64, hi: u32, lo: u32) -> u64 {
    (lo..=hi).rev().fold(0, |n, i| 2 * n + bit(w, i))
}

/// The word with the low bits of `v` in bits hi:lo.
pub fn with_run(w: u64, hi: u32, lo: u32, v: u64) -> u64 {
    (0..64)
        .rev()
        .fold(0, |n, i| 2 * n + if lo <= i && i <= hi { bit(v, i - lo) } else { bit(w, i) })
}

/// A run of a word: what the programs call it, its highest and lowest bit, and whether document 01 names it.
pub struct Run {
    pub name: &'static str,
    pub hi: u32,
    pub lo: u32,
    pub named: bool,
}

impl Run {
    /// The number that the word has here.
    pub fn of(&self, w: u64) -> u64 {
        run(w, self.hi, self.lo)
    }

    /// The word with the low bits of `v` here.
    pub fn with(&self, w: u64, v: u64) -> u64 {
        with_run(w, self.hi, self.lo, v)
    }
}

const fn field(name: &'static str, hi: u32, lo: u32) -> Run {
    Run { name, hi, lo, named: true }
}

const fn reserved(name: &'static str, hi: u32, lo: u32) -> Run {
    Run { name, hi, lo, named: false }
}

pub const ENTRY: [Run; 11] = [
    field("level", 1, 0),
    field("pending", 2, 2),
    field("state", 4, 3),
    reserved("reserved5", 6, 5),
    field("l2_map", 9, 7),
    field("mig_type", 11, 10),
    field("gpa", 51, 12),
    field("operation", 53, 52),
    reserved("reserved54", 55, 54),
    field("status", 60, 56),
    reserved("reserved61", 63, 61),
];

pub const INFO: [Run; 5] = [
    field("format", 2, 0),
    field("first", 11, 3),
    field("hpa", 51, 12),
    reserved("zero52", 54, 52),
    field("last", 63, 55),
];

pub const RECORD: [Run; 7] = [
    field("state", 7, 0),
    field("dirty", 8, 8),
    field("cached", 9, 9),
    reserved("spare10", 15, 10),
    field("stamp", 31, 16),
    field("epoch", 47, 32),
    reserved("spare48", 63, 48),
];

/// No bit of a record is set but those that document 01 names.
pub fn plain(w: u64) -> bool {
    RECORD.iter().all(|r| r.named || run(w, r.hi, r.lo) == 0)
}

/// The class of a state number, as a word of text.
pub fn class(state: u64) -> &'static str {
    match state {
        0 | 5 | 6 | 27 | 28 | 64 => "free",
        129 | 132 | 193 | 196 => "non-leaf",
        1 | 2 | 3 | 4 | 8 | 9 | 11 | 12 | 16 | 17 | 19 | 20 => "leaf",
        24 | 25 | 26 | 29 | 30 | 31 | 32 | 33 | 34 | 65 | 68 | 96 | 97 => "leaf",
        _ => "unlisted",
    }
}

#[cfg(test)]
mod tests {
    use super::*;

    /// The tables above, on which every comparison rests, leave no bit out and have none twice.
    #[test]
    fn the_runs_fill_each_word() {
        for runs in [&ENTRY[..], &INFO[..], &RECORD[..]] {
            let ends = runs.iter().fold(0, |next, r| {
                assert_eq!(r.lo, next, "{}", r.name);
                r.hi + 1
            });
            assert_eq!(ends, 64);
        }
    }
}
