//! The calls: the written scenario against its own comments, and the program `scenario` against `chirpsteeple_tests::bench`.

use chirpsteeple_tests::cases::{
    every_bound_of_a_restore, every_bound_of_an_export, every_bound_of_the_session, every_kind_of_record,
};
use chirpsteeple_tests::histories::random_scenario;
use chirpsteeple_tests::met::Met;
use chirpsteeple_tests::program::output;
use chirpsteeple_tests::scenario::{parts, printed, Scenario};

const WRITTEN: &str = include_str!("../../../crates/scenario/stdin");
const STORED: &str = include_str!("../../../crates/scenario/stdout");

const SEEDS: u64 = 12;
const LENGTH: usize = 8_000;

/// A printed line as names, each with the values behind it. A name has up to eight letters; a word in hexadecimal, which may begin with a letter too, has sixteen digits.
fn fields(line: &str) -> Vec<(&str, Vec<&str>)> {
    let mut fields: Vec<(&str, Vec<&str>)> = Vec::new();
    for part in line.split_ascii_whitespace() {
        let name = part.len() <= 8 && part.starts_with(|c: char| c.is_ascii_lowercase());
        match fields.last_mut() {
            Some((_, values)) if !name => values.push(part),
            _ => fields.push((part, Vec::new())),
        }
    }
    fields
}

/// Compares line by line what `scenario` prints for `input` with what it should; a failure shows the input up to the line.
fn same(input: &str) {
    let lines: Vec<&str> = input.lines().collect();
    let output = output("scenario", input);
    let mut found = output.lines();
    for (place, expected) in printed(input) {
        let found = found.next().unwrap_or("nothing");
        if found != expected {
            let before = lines[place.saturating_sub(40)..=place].join("\n");
            panic!("line {}, the last of these:\n{before}\nprints   {found}\nand not  {expected}", place + 1);
        }
    }
    assert_eq!(found.next(), None, "printed behind the last line");
}

#[test]
fn what_document_01_gives_stands_behind_every_written_line() {
    let lines: Vec<&str> = WRITTEN.lines().collect();
    for (place, line) in printed(WRITTEN) {
        let said = lines[place].split_once('#').map_or("", |(_, comment)| comment.trim());
        if line.starts_with("code ") {
            let found = fields(&line);
            for field in fields(&format!("code {said}")) {
                assert!(found.contains(&field), "line {}: {}\nprints {line}", place + 1, lines[place]);
            }
        } else {
            assert_eq!(line, said, "line {}: {}", place + 1, lines[place]);
        }
    }
}

#[test]
fn the_stored_output_is_that_of_the_written_scenario() {
    let expected: String = printed(WRITTEN).into_iter().map(|(_, line)| line + "\n").collect();
    assert!(STORED == expected, "crates/scenario/stdout is not what crates/scenario/stdin prints");
}

#[test]
fn the_program_on_the_written_scenario() {
    same(WRITTEN);
}

/// Without this the comparison of random scenarios might compare little.
#[test]
fn random_scenarios_meet_every_code_of_every_call_and_every_outcome_of_an_entry() {
    let mut met = Met::default();
    for seed in 0..SEEDS {
        let mut scenario = Scenario::default();
        for line in random_scenario(seed, LENGTH).lines() {
            let answered = scenario.line(line).map_or(false, |printed| printed.starts_with("code "));
            if let (true, Some((word, Some(numbers)))) = (answered, parts(line)) {
                met.call(word, &scenario.answer);
                met.entries(word, &numbers, &scenario.answer, &scenario.spaces.list.words);
            }
        }
    }
    assert_eq!(met.faults(10), Vec::<String>::new());
}

#[test]
fn the_program_on_random_scenarios() {
    for seed in 0..SEEDS {
        same(&random_scenario(seed, LENGTH));
    }
}

#[test]
fn the_program_on_every_kind_of_record() {
    same(&every_kind_of_record());
}

#[test]
fn the_program_on_every_bound_of_the_session() {
    same(&every_bound_of_the_session());
}

#[test]
fn the_program_on_every_bound_of_an_export() {
    same(&every_bound_of_an_export());
}

#[test]
fn the_program_on_every_bound_of_a_restore() {
    same(&every_bound_of_a_restore());
}

#[test]
fn the_program_on_lines_in_every_form() {
    same("\n   \n# a comment\n  # another\nlend 2 # a third\nnew 2  \nnew  2   # a fourth\nnew 0002\nnew\n");
    same("lend 2\nnew 2 99 99 99 99 99 99\nstream 7 1 2 3 4 5 6\nstream 8 1 1 1 1\nrest 8\nphase 9\nlend 9999\nnew 2\n");
    same("word 8193 1\nword 8194 1\nshow 8190 9000\nshow 3 3\nshow 3 2\nshow\n");
    same("word 0 18446744073709551615\nword 0 18446744073709551616\nword 0 99999999999999999999\nshow 0 1\n");
    same("lend 2\nrenew 2\nNew 2\n7\nnew -1\nnew 2,\nnew x\n");
    same("word 0 0xff\nword 1 00x0f\nword 2 0x\nword 3 0xffffffffffffffff\nword 4 0x0000000000000000001\nshow 0 5\n");
    same("word 0 0x10000000000000000\nword 0 x5\nword 0 1x5\nword 0 0x5x\nword 0 0xx\nword 0 5a\nword 0 0xA\nword 0 0X5\n");
    same("list 2\nbuffer 3\nentry 1 5\nentry 513 6\nentry 514 7\ncontent 0 8\ncontent 513 9\ncontent 514 1\nreset\n");
    same("entry 513 6\nlisted 512 600\nsent 0 2\nlisted 514 515\nsent 3 2\nlisted\ndscan\ndcheck\nexport\nrestore\n");
    same("lend 2\nnew 2");
}
