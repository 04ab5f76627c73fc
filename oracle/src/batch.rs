//! Many sessions in one file, each preceded by its length as u32, little-endian.

use std::io::{stdin, stdout, Read, Write};

pub fn split(mut bytes: &[u8]) -> Vec<&[u8]> {
    let mut sessions = vec![];
    while !bytes.is_empty() {
        let (length, rest) = bytes.split_at(4);
        let length = u32::from_le_bytes(length.try_into().unwrap()) as usize;
        let (session, rest) = rest.split_at(length);
        sessions.push(session);
        bytes = rest;
    }
    sessions
}

pub fn join(sessions: &[Vec<u8>]) -> Vec<u8> {
    let mut bytes = vec![];
    for session in sessions {
        bytes.extend((session.len() as u32).to_le_bytes());
        bytes.extend(session);
    }
    bytes
}

/// Answers standard input: one session, or with `batch` many, their answers separated by `=`.
pub fn answer_input(batch: bool, answer: impl Fn(&[u8]) -> String) {
    let mut input = vec![];
    stdin().read_to_end(&mut input).unwrap();
    let sessions = if batch { split(&input) } else { vec![&input[..]] };
    let mut out = stdout().lock();
    for (index, session) in sessions.iter().enumerate() {
        let between = if index > 0 { "=\n" } else { "" };
        // a reader that has seen enough closes its end
        if write!(out, "{between}{}", answer(session)).is_err() {
            return;
        }
    }
}
