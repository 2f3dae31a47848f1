//! Numbers as bytes, little-endian: words, and the session's layout of 48 of them.

use crate::bench::session::{Check, Phase, Session, Stream};

pub const WORD: usize = 8;

/// The words of a session.
pub const SESSION_WORDS: usize = 48;

/// Of which those of its streams begin here, five each.
pub const STREAMS: usize = 8;
pub const STREAM_WORDS: usize = 5;

/// None for bytes that are not in whole words.
pub fn words(bytes: &[u8]) -> Option<Vec<u64>> {
    let whole = bytes.len() % WORD == 0;
    whole.then(|| bytes.chunks(WORD).map(|word| u64::from_le_bytes(word.try_into().unwrap())).collect())
}

pub fn bytes(words: &[u64]) -> Vec<u8> {
    let mut bytes = Vec::with_capacity(words.len() * WORD);
    words.iter().for_each(|word| bytes.extend(word.to_le_bytes()));
    bytes
}

/// None for bytes that fit no layout. The ranges of the numbers are left to the call.
pub fn session(bytes: &[u8]) -> Option<Session> {
    let words = words(bytes).filter(|words| words.len() == SESSION_WORDS)?;
    let mut streams = Session::STREAMS_AT_REST;
    for (stream, words) in streams.iter_mut().zip(words[STREAMS..].chunks(STREAM_WORDS)) {
        *stream = read_stream(words)?;
    }
    Some(Session {
        phase: *Phase::ALL.get(usize::try_from(words[0]).ok()?)?,
        pages: words[1],
        tlb: words[2],
        epoch: words[3],
        created: words[4],
        check: Check { place: words[5], complete: flag(words[6])?, failed: flag(words[7])? },
        streams,
    })
}

fn flag(word: u64) -> Option<bool> {
    match word {
        0 => Some(false),
        1 => Some(true),
        _ => None,
    }
}

fn read_stream(words: &[u64]) -> Option<Stream> {
    match *words {
        [0, 0, 0, 0, 0] => Some(Stream::AtRest),
        [1, next, last, errors, data] => Some(Stream::Interrupted { next, last, errors, data }),
        _ => None,
    }
}

pub fn session_bytes(session: &Session) -> Vec<u8> {
    let Session { phase, pages, tlb, epoch, created, check, streams } = *session;
    let mut words = vec![phase as u64, pages, tlb, epoch, created];
    words.extend([check.place, check.complete as u64, check.failed as u64]);
    for stream in streams {
        words.extend(match stream {
            Stream::AtRest => [0; STREAM_WORDS],
            Stream::Interrupted { next, last, errors, data } => [1, next, last, errors, data],
        });
    }
    bytes(&words)
}
