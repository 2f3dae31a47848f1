//! The layout and the order of codes on the C side, which every comparison with the library rests on.

use chirpsteeple_tests::bench::session::{Check, Phase, Session, Stream};
use chirpsteeple_tests::histories::any::well_formed;
use chirpsteeple_tests::host::bytes::{bytes, session, session_bytes, words};
use chirpsteeple_tests::host::{dcheck, dscan, export, new, pause, restore, start};
use chirpsteeple_tests::random::Random;

/// A session of one page, stream 0 at rest or not.
fn one_page(phase: Phase, check: Check, stream: Stream) -> Vec<u8> {
    let mut streams = Session::STREAMS_AT_REST;
    streams[0] = stream;
    let epoch = if phase == Phase::Idle { 0 } else { 1 };
    session_bytes(&Session { phase, pages: 1, tlb: 1, epoch, created: 2, check, streams })
}

#[test]
fn every_word_has_its_place() {
    let mut streams = Session::STREAMS_AT_REST;
    streams[1] = Stream::Interrupted { next: 21, last: 22, errors: 23, data: 24 };
    let check = Check { place: 15, complete: false, failed: true };
    let laid = Session { phase: Phase::Blackout, pages: 11, tlb: 12, epoch: 13, created: 14, check, streams };
    let mut expected = vec![2, 11, 12, 13, 14, 15, 0, 1, 0, 0, 0, 0, 0, 1, 21, 22, 23, 24];
    expected.resize(48, 0);
    assert_eq!(words(&session_bytes(&laid)).unwrap(), expected);
    assert_eq!(bytes(&[0x0102, 0xff << 56]), [2, 1, 0, 0, 0, 0, 0, 0, 0, 0, 0, 0, 0, 0, 0, 255]);
}

#[test]
fn a_session_is_read_as_it_was_written() {
    let random = &mut Random::new(1);
    for _ in 0..1_000 {
        let written = well_formed(random, 5);
        assert_eq!(session(&session_bytes(&written)), Some(written));
    }
}

#[test]
fn bytes_that_fit_no_layout() {
    let fitting = words(&one_page(Phase::Idle, Check::RESET, Stream::AtRest)).unwrap();
    // Phase 4, flags of 2, and streams at rest with a word.
    for (index, word) in [(0, 4), (6, 2), (7, 2), (8, 2), (9, 1), (12, 1), (43, u64::MAX), (47, 1 << 63)] {
        let mut damaged = fitting.clone();
        damaged[index] = word;
        assert_eq!(session(&bytes(&damaged)), None, "{index}");
    }
    for length in [0, 8, 383, 385, 376, 392] {
        let mut damaged = bytes(&fitting);
        damaged.resize(length, 0);
        assert_eq!(session(&damaged), None, "{length}");
        assert_eq!(start(&mut damaged, &mut [0; 16]).code, 40, "{length}");
    }
    assert_eq!(start(&mut bytes(&fitting), &mut [0; 16]).code, 0);
}

#[test]
fn new_looks_at_the_length_of_the_session_alone() {
    for (length, table, streams, code) in
        [(384, 16, 2, 0), (383, 16, 2, 40), (392, 16, 1, 40), (384, 17, 1, 40), (384, 24, 2, 40), (384, 16, 1, 42)]
    {
        let (mut session, mut table) = (vec![0xee; length], vec![0xee; table]);
        assert_eq!(new(&mut session, &mut table, streams).code, code);
        match code {
            0 => assert_eq!((session, table), (bytes_of_a_new_session(), vec![0; 16])),
            _ => assert!(session.iter().chain(&table).all(|&byte| byte == 0xee)),
        }
    }
}

fn bytes_of_a_new_session() -> Vec<u8> {
    let mut words = vec![0, 1, 1, 0, 2];
    words.resize(48, 0);
    bytes(&words)
}

#[test]
fn a_table_has_from_1_to_4096_pages_of_16_bytes() {
    for (length, code) in
        [(0, 40), (8, 40), (15, 40), (16, 0), (17, 40), (65_535, 40), (65_536, 0), (65_544, 40), (65_552, 40)]
    {
        let mut session = words(&one_page(Phase::Live, Check::RESET, Stream::AtRest)).unwrap();
        session[1] = length as u64 / 16;
        assert_eq!(pause(&mut bytes(&session), &mut vec![0; length]).code, code, "{length}");
    }
}

/// An interrupted stream; in Idle it makes the session malformed.
const INTERRUPTED: Stream = Stream::Interrupted { next: 0, last: 0, errors: 0, data: 0 };

/// What an export of stream 0 answers with a list and a buffer of so many bytes; what it refuses it leaves.
fn code_of_export(phase: Phase, stream: Stream, resume: u64, list: usize, buffer: usize) -> u64 {
    let before = one_page(phase, Check::RESET, stream);
    let (mut session, mut table) = (before.clone(), vec![0; 16]);
    let (mut list, mut buffer) = (vec![0xee; list], vec![0xee; buffer]);
    let code = export(&mut session, &mut table, &mut list, &mut buffer, 0, resume, 0, 9).code;
    if code >= 40 {
        assert!(session == before && list.iter().chain(&buffer).all(|&byte| byte == 0xee));
    }
    code
}

#[test]
fn ragged_lists_and_buffers_are_42_after_40_and_41_and_before_44() {
    for (list, buffer) in [(12, 12), (12, 8), (8, 12), (9, 8), (7, 7), (4_097, 4_096)] {
        assert_eq!(code_of_export(Phase::Idle, INTERRUPTED, 0, list, buffer), 40);
        assert_eq!(code_of_export(Phase::Idle, Stream::AtRest, 0, list, buffer), 41);
        assert_eq!(code_of_export(Phase::Live, Stream::AtRest, 1, list, buffer), 42);
        assert_eq!(code_of_export(Phase::Live, INTERRUPTED, 0, list, buffer), 42);
    }
    assert_eq!(code_of_export(Phase::Live, Stream::AtRest, 1, 8, 8), 44);
    assert_eq!(code_of_export(Phase::Live, INTERRUPTED, 0, 8, 8), 44);
    assert_eq!(code_of_export(Phase::Live, INTERRUPTED, 1, 8, 8), 0);
}

#[test]
fn resume_above_1_is_42_after_40_and_41_and_before_44() {
    for resume in [2, 1 << 32, u64::MAX] {
        assert_eq!(code_of_export(Phase::Idle, INTERRUPTED, resume, 8, 8), 40);
        assert_eq!(code_of_export(Phase::Idle, Stream::AtRest, resume, 8, 8), 41);
        assert_eq!(code_of_export(Phase::Live, Stream::AtRest, resume, 8, 8), 42);
        assert_eq!(code_of_export(Phase::Live, INTERRUPTED, resume, 8, 8), 42);
    }
}

#[test]
fn a_ragged_list_of_a_scan_is_42_after_40_and_41() {
    for (phase, stream, length, code) in [
        (Phase::Idle, INTERRUPTED, 9, 40),
        (Phase::Blackout, Stream::AtRest, 9, 41),
        (Phase::Live, Stream::AtRest, 9, 42),
        (Phase::Live, Stream::AtRest, 8, 0),
    ] {
        let mut session = one_page(phase, Check::RESET, stream);
        assert_eq!(dscan(&mut session, &mut [0; 16], 0, 1, &mut vec![0; length], 9).code, code);
    }
}

#[test]
fn a_ragged_list_of_a_check_is_42_before_50() {
    let failed = Check { place: 0, complete: false, failed: true };
    for (check, length, code) in [(failed, 12, 42), (failed, 8, 50), (Check::RESET, 8, 3), (Check::RESET, 9, 42)] {
        let mut session = one_page(Phase::Blackout, check, Stream::AtRest);
        assert_eq!(dcheck(&mut session, &mut [0; 16], &mut vec![0; length], 9).code, code);
    }
}

#[test]
fn a_ragged_list_of_a_restore_is_42_after_40_and_41() {
    for (phase, stream, length, code) in [
        (Phase::Idle, INTERRUPTED, 9, 40),
        (Phase::Live, Stream::AtRest, 9, 41),
        (Phase::Idle, Stream::AtRest, 9, 42),
        (Phase::Idle, Stream::AtRest, 0, 42),
        (Phase::Idle, Stream::AtRest, 8, 0),
    ] {
        let mut session = one_page(phase, Check::RESET, stream);
        assert_eq!(restore(&mut session, &mut [0; 16], &mut vec![0; length], 0, 9).code, code);
    }
}
