//! Scenes of the two lines: writers, checks, receivers and their records.

use super::{long, two, Script, MOST_PAYLOAD, MOST_ROOM};
use crate::frame::{self, Line, PENDING, START, STOP};
use crate::make::prng::Prng;
use crate::make::wire::{self, EDGE_ADDRESSES};

/// Numbers about the ends of one byte and of two, and about the limits 64 and 130; 320, 386 and
/// 33280 are such that one of their bytes alone is a limit.
pub const EDGE_NUMBERS: [usize; 18] = [
    63, 64, 65, 129, 130, 131, 254, 255, 256, 257, 320, 321, 386, 387, 512, 33280, 65534, 65535,
];

/// A room about an image's length, or about a size of the buffers.
pub fn room(prng: &mut Prng, image: usize) -> [u8; 2] {
    let room = match prng.below(16) {
        0..=5 => image,
        6..=9 => image - 1,
        10..=11 => image + prng.between(1, 4),
        12 => prng.pick(&[0, 1]),
        13 => prng.pick(&EDGE_NUMBERS),
        14 => prng.between(MOST_ROOM - 2, MOST_ROOM + 2),
        _ => prng.below(MOST_ROOM + 100),
    };
    two(room)
}

/// Both writers, with data up to and over 60 bytes.
pub fn writers(script: &mut Script) {
    let prng = &mut script.prng;
    let length = match prng.below(10) {
        0..=5 => prng.below(6),
        6 => prng.between(6, 59),
        7 => 60,
        8 => 61,
        _ => match prng.below(3) {
            0 => long(prng),
            _ => prng.between(62, 200),
        },
    };
    let data = wire::bytes(prng, length);
    let mut head = [
        prng.pick(&EDGE_ADDRESSES),
        wire::byte(prng),
        wire::byte(prng),
    ];
    if prng.percent(50) {
        head[0] = prng.byte();
    }
    let point = [&head[1..], &data].concat();
    let addressed = [&head, data.as_slice()].concat();
    let point_room = room(prng, Line::Point.image(&point).len());
    let addressed_room = room(prng, Line::Addressed.image(&addressed).len());
    script.record(0x01, &[&point_room, point.as_slice()].concat());
    script.record(0x02, &[&addressed_room, addressed.as_slice()].concat());
}

/// The length asked for a content, and both checks.
pub fn checks(script: &mut Script) {
    let prng = &mut script.prng;
    let length = match prng.below(6) {
        0 => prng.pick(&[0, 1, 63, 64, 65]),
        1 => long(prng),
        _ => prng.between(2, 80),
    };
    let bytes = wire::bytes(prng, length);
    let with_fcs = Line::Point.content(&bytes);
    script.record(0x03, &bytes);
    script.record(0x04, &bytes);
    script.record(0x04, &with_fcs);
    script.record(0x05, &bytes);
}

pub fn point_pieces(script: &mut Script) {
    for _ in 0..script.prng.between(1, 4) {
        let stretch = stretch(&mut script.prng, Line::Point, 0);
        pieces(script, 0x10, &stretch);
    }
}

/// A new station, mostly, and what it hears.
pub fn addressed_pieces(script: &mut Script) {
    let own = match script.prng.below(3) {
        0 => 0x00,
        1 => script.prng.pick(&EDGE_ADDRESSES),
        _ => script.prng.byte(),
    };
    if script.prng.percent(80) {
        script.record(0x11, &[own]);
    }
    for _ in 0..script.prng.between(1, 4) {
        let stretch = stretch(&mut script.prng, Line::Addressed, own);
        pieces(script, 0x12, &stretch);
    }
}

/// A stretch, now and then after many bytes that bring no event.
fn stretch(prng: &mut Prng, line: Line, own: u8) -> Vec<u8> {
    match prng.below(12) {
        0 => {
            let count = long(prng);
            wire::long_stretch(prng, line, own, count)
        }
        _ => wire::stretch(prng, line, own),
    }
}

/// A stretch handed to a receiver whole, byte by byte, or in pieces, some of them empty.
pub fn pieces(script: &mut Script, op: u8, stretch: &[u8]) {
    let most = match script.prng.below(6) {
        0..=2 => MOST_PAYLOAD,
        3 if stretch.len() < 300 => 1,
        _ => 20.max(stretch.len() / 10),
    };
    let mut rest = stretch;
    while !rest.is_empty() {
        let length = match most {
            MOST_PAYLOAD => rest.len().min(most),
            _ => script
                .prng
                .between(usize::from(most == 1), most.min(rest.len())),
        };
        let (piece, behind) = rest.split_at(length);
        script.record(op, piece);
        rest = behind;
    }
}

/// Any receiver record, and pieces that may end its frame.
pub fn put_record(script: &mut Script) {
    let prng = &mut script.prng;
    let line = prng.pick(&[Line::Point, Line::Addressed]);
    let count = match prng.below(6) {
        0 => prng.pick(&[0, 1, 2, 3, 4, 61, 62, 63, 64, 65]),
        1 => prng.pick(&EDGE_NUMBERS),
        _ => prng.below(66),
    };
    let address = match prng.below(3) {
        0 => prng.pick(&EDGE_ADDRESSES),
        _ => 0x05,
    };
    let phase = prng.pick(&[0, 1, 1, 1, 2, 2, 3]);
    let fill = prng.pick(&[address, 0x00, START, STOP, PENDING, 0x31]);
    let which = match line {
        Line::Point => 0,
        Line::Addressed => prng.pick(&[1, 1, 1, 2]),
    };
    let rest = rest_of_frame(prng, line, &vec![fill; count], phase > 1);
    let [low, high] = two(count);
    script.record(0x13, &[which, address, phase, low, high, fill]);
    let op = match line {
        Line::Point => 0x10,
        Line::Addressed => 0x12,
    };
    if script.prng.percent(30) {
        let stretch = stretch(&mut script.prng, line, address);
        pieces(script, op, &stretch);
    }
    pieces(script, op, &rest);
    if count > 64 || script.prng.percent(30) {
        script.record(op, &[]);
        script.record(0x13, &[which, 0x05, 0, 0, 0, 0]);
    }
}

/// What completes a frame with this content so far, or comes near it.
fn rest_of_frame(prng: &mut Prng, line: Line, so_far: &[u8], pending: bool) -> Vec<u8> {
    let length = prng.between(1, 3);
    let mut more = wire::bytes(prng, length);
    if pending {
        more[0] = prng.pick(&[START, STOP, PENDING]);
    } else if prng.percent(50) {
        more.clear();
    }
    let content = line.content(&[so_far, &more].concat());
    let mut rest = frame::stuffed(&content[so_far.len()..]);
    if pending {
        rest.remove(0);
    }
    rest.push(STOP);
    match prng.below(6) {
        0 => vec![prng.pick(&[START, STOP, PENDING, 0x00, 0x03])],
        1 => [&[wire::byte(prng)], rest.as_slice()].concat(),
        _ => rest,
    }
}
