//! What `named_numbers` and `word_vectors` print, against document 01's numbers, and its words as `chirpsteeple_tests::words` reads them.

use chirpsteeple_tests::program::output;
use chirpsteeple_tests::random::Random;
use chirpsteeple_tests::words::{class, plain, run, with_run, Run, ENTRY, INFO, RECORD};

/// What is printed before standard input is read.
const OPENING: &str = "\
marked 1 in 0010000000005000 out 0010000000005000
marked 2 in 0010000000005000 out 0500000000005000
marked 3 in 0010000000005000 out 1100000000005000
marked 4 in 0010000000005000 out 0010000000005004
marked 5 in 0010000000005000 out 0030000000005000
marked 6 in 0010000000005000 out 0020000000005000
marked 7 in 0010000000005000 out 0700000000005000
marked 8 in 0000000000000005 out 0f00000000000001
marked 9 in 0010000005000000 out 0200000005000000
marked 10 in 0000000000005000 out 0100000000005000
scanned out 0010000000005008
info of an empty list 0000000000000ff8
info of one entry 0000000000000000
info of 512 entries ff80000000000000
record blocked at TLB epoch 2 0000000000020001
record with the largest stamp 00000000ffff0004
record with the largest epoch 0000ffff00000018
";

const KINDS: [(&str, &[Run]); 3] = [("entry", &ENTRY), ("info", &INFO), ("record", &RECORD)];

fn taken_apart(kind: &str, runs: &[Run], w: u64) -> String {
    let mut line = format!("  {kind}");
    for r in runs {
        line += &format!(" {} {}", r.name, run(w, r.hi, r.lo));
        if (kind, r.name) == ("record", "state") {
            line += &format!(" class {}", class(run(w, r.hi, r.lo)));
        }
    }
    if kind == "record" {
        line += &format!(" plain {}", plain(w) as u8);
    }
    line + &format!(" joined {w:016x}\n")
}

/// The word w with each of its fields in turn taken from v.
fn with_each(kind: &str, runs: &[Run], w: u64, v: u64) -> String {
    let mut line = format!("  {kind} with");
    for r in runs.iter().filter(|r| r.named) {
        line += &format!(" {} {:016x}", r.name, with_run(w, r.hi, r.lo, run(v, r.hi, r.lo)));
    }
    line + "\n"
}

fn word(w: u64) -> String {
    let apart: String = KINDS.iter().map(|(kind, runs)| taken_apart(kind, runs, w)).collect();
    format!("taken apart: word {w:016x}\n{apart}")
}

fn two_words(w: u64, v: u64) -> String {
    let with: String = KINDS.iter().map(|(kind, runs)| with_each(kind, runs, w, v)).collect();
    word(w) + &with
}

/// Compared line by line, so that a failure shows the line and not the whole text.
fn same(input: &str, expected: &str) {
    let printed = output("word_vectors", input);
    let wanted = OPENING.to_owned() + expected;
    for (n, (p, w)) in printed.lines().zip(wanted.lines()).enumerate() {
        assert_eq!(p, w, "line {}", n + 1);
    }
    assert_eq!(printed.len(), wanted.len());
}

fn same_pairs(pairs: &[(u64, u64)]) {
    let input: String = pairs.iter().map(|(w, v)| format!("{w:x} {v:x}\n")).collect();
    let expected: String = pairs.iter().map(|&(w, v)| two_words(w, v)).collect();
    same(&input, &expected);
}

#[test]
fn named_numbers() {
    let expected = "\
codes 0 1 2 3 40 41 42 43 44 45 46 47 48 49 50 51 52 53 54 55 56
states 0 1 2 3 4 24 25 26 27 29 30 31 5 6 8 9 11 12 16 17 19 20 28 32 33 34 64 65 68 96 97 129 132 193 196
statuses 0 1 2 4 5 7 15 17
operations 0 1 2 3
hints 0 1 2 3
restores 0 1
";
    assert_eq!(output("named_numbers", ""), expected);
}

#[test]
fn words_built_from_their_fields() {
    same("", "");
}

#[test]
fn s1_to_s4_the_class_of_every_number() {
    let input: String = (0..256).map(|s| format!("{s:x}\n")).collect();
    let expected: String = (0..256).map(word).collect();
    same(&input, &expected);
}

#[test]
fn l5_every_bit_alone_and_every_bit_missing() {
    let mut pairs = Vec::new();
    for i in 0..64 {
        for w in [1 << i, !(1 << i), 0, u64::MAX] {
            pairs.push((w, 1 << i));
            pairs.push((w, !(1 << i)));
        }
    }
    same_pairs(&pairs);
}

#[test]
fn l5_every_run_full_and_every_run_empty() {
    let mut pairs = Vec::new();
    for (_, runs) in KINDS {
        for r in runs {
            for w in [with_run(0, r.hi, r.lo, u64::MAX), with_run(u64::MAX, r.hi, r.lo, 0)] {
                pairs.push((w, 0));
                pairs.push((w, u64::MAX));
            }
        }
    }
    same_pairs(&pairs);
}

#[test]
fn many_words() {
    // More than the program reads at once, so that lines are cut between pieces.
    let mut random = Random::new(1);
    let pairs: Vec<(u64, u64)> = (0..4000).map(|_| (random.uneven_word(), random.uneven_word())).collect();
    same_pairs(&pairs);
}

#[test]
fn lines_that_are_no_words() {
    let input = "page 5\n1 2 3\n10000000000000000\n1 10000000000000000\n-1\n5,\n0x5000\n";
    same(input, &"unreadable\n".repeat(7));
}

#[test]
fn lines_in_every_form() {
    same("\n \n\t\r\n", "");
    same("0010000000005000\r\n", &word(0x0010_0000_0000_5000));
    same("00000000000000000000000000000005\n", &word(5));
    same("  FF\t fF  \n", &two_words(255, 255));
    same("5000", &word(0x5000));
}
