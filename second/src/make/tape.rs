//! Random tapes.

use super::prng::Prng;
use super::wire;
use crate::frame::Line;
use crate::station::MASTER;
use crate::tape::{ADDRESSED_BYTE, POINT_BYTE};

pub fn tape(seed: u64) -> Vec<u8> {
    let mut prng = Prng::new(seed);
    let records = match prng.below(20) {
        0 => return Vec::new(),
        1 => return vec![prng.pick(&[POINT_BYTE, ADDRESSED_BYTE, 0x00, 0x03, 0xFD])],
        2..=5 => prng.between(1, 30),
        6..=17 => prng.between(100, 900),
        _ => prng.between(1000, 4000),
    };
    let tape = both_lines(&mut prng, records);
    ended(&mut prng, tape)
}

/// So many records, of the two lines in turn; the tape may end inside a frame of either.
fn both_lines(prng: &mut Prng, records: usize) -> Vec<u8> {
    let point = wire::stream(prng, Line::Point, MASTER, records);
    let addressed = wire::stream(prng, Line::Addressed, MASTER, records);
    let mut lines = [
        (POINT_BYTE, point.into_iter()),
        (ADDRESSED_BYTE, addressed.into_iter()),
    ];
    // How likely the next byte is of the other line: never, now and then, byte by byte.
    let turn = prng.pick(&[0, 2, 10, 50, 100]);
    let mut heard = prng.below(2);
    let mut tape = Vec::new();
    for _ in 0..records {
        let (kind, bytes) = &mut lines[heard];
        tape.push(*kind);
        tape.extend(bytes.next());
        if prng.percent(turn) {
            heard = 1 - heard;
        }
    }
    tape
}

/// The tape with one of its last lines: `end`, `cut` or `bad`.
fn ended(prng: &mut Prng, mut tape: Vec<u8>) -> Vec<u8> {
    let unknown = prng.pick(&[0x00, 0x03, 0x04, 0xFD, 0xFF]);
    match prng.below(10) {
        0..=5 => {}
        6..=7 => tape.push(prng.pick(&[POINT_BYTE, ADDRESSED_BYTE])),
        8 => tape.extend([unknown, 0xFD]),
        _ => {
            let record = prng.below(tape.len() / 2);
            tape[record * 2] = unknown;
        }
    }
    tape
}
