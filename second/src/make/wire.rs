//! Stretches of a line: frames, sound and damaged, and what else may be heard.

use super::prng::Prng;
use crate::frame::{self, Line, MOST_CONTENT, PENDING, START, STOP};
use crate::station::EVERY_READER;

/// Addresses at the edges of what 01 allows.
pub const EDGE_ADDRESSES: [u8; 9] = [0x00, 0x01, 0x7E, 0x7F, 0x80, 0xFC, 0xFD, 0xFE, 0xFF];

/// A byte; those that are stuffed, and those that mean something on the lines, come often.
pub fn byte(prng: &mut Prng) -> u8 {
    match prng.below(10) {
        0..=2 => stuffed_byte(prng),
        3..=4 => prng.pick(&[0x00, 0x01, 0x02, 0x03, 0x2A, 0x55, 0x7F]),
        _ => prng.byte(),
    }
}

pub fn bytes(prng: &mut Prng, count: usize) -> Vec<u8> {
    (0..count).map(|_| byte(prng)).collect()
}

fn stuffed_byte(prng: &mut Prng) -> u8 {
    prng.pick(&[START, STOP, PENDING])
}

/// Bytes that are all stuffed in a frame.
pub fn stuffed_bytes(prng: &mut Prng, count: usize) -> Vec<u8> {
    (0..count).map(|_| stuffed_byte(prng)).collect()
}

/// The fields of a frame that fits, for a station of this address on the addressed line.
pub fn fields(prng: &mut Prng, line: Line, own: u8) -> Vec<u8> {
    let length = match prng.below(10) {
        0..=5 => prng.between(4, 10),
        6..=7 => prng.between(11, MOST_CONTENT),
        _ => prng.pick(&[MOST_CONTENT - 1, MOST_CONTENT]),
    };
    fields_of(prng, line, own, length - line.check_length())
}

fn fields_of(prng: &mut Prng, line: Line, own: u8, length: usize) -> Vec<u8> {
    let mut fields = bytes(prng, length);
    if let (Line::Addressed, Some(first)) = (line, fields.first_mut()) {
        *first = match prng.below(10) {
            0..=7 => own,
            8 => EVERY_READER,
            _ => prng.pick(&EDGE_ADDRESSES),
        };
    }
    fields
}

/// A stretch of a line: mostly one frame, with what is wrong about it.
pub fn stretch(prng: &mut Prng, line: Line, own: u8) -> Vec<u8> {
    let image = line.image(&fields(prng, line, own));
    match prng.below(18) {
        0..=4 => image,
        5 => [image.clone(), image].concat(),
        6 => wrong_content(prng, line, own),
        7 => check_over_stuffed(prng, line, own),
        8 => [cut(prng, &image), line.image(&fields(prng, line, own))].concat(),
        9 => cut(prng, &image),
        10 => over_long(prng, line, own),
        11 => short(prng, line, own),
        12 => bad_pair(prng, image),
        13 => damaged(prng, image),
        14 => [vec![PENDING; prng.between(1, 3)], image].concat(),
        15 => [vec![START; prng.between(1, 3)], image].concat(),
        16 => [image, quiet_noise(prng)].concat(),
        _ => noise(prng),
    }
}

/// Stretch by stretch, at least so many bytes.
pub fn stream(prng: &mut Prng, line: Line, own: u8, count: usize) -> Vec<u8> {
    let mut stream = Vec::new();
    while stream.len() < count {
        stream.extend(stretch(prng, line, own));
    }
    stream
}

fn cut(prng: &mut Prng, image: &[u8]) -> Vec<u8> {
    image[..prng.between(1, image.len() - 1)].to_vec()
}

/// One bit of the content behind its first byte is wrong.
fn wrong_content(prng: &mut Prng, line: Line, own: u8) -> Vec<u8> {
    let mut content = line.content(&fields(prng, line, own));
    let place = prng.between(1, content.len() - 1);
    content[place] ^= 1 << prng.below(8);
    frame::image(&content)
}

/// A mistake that comes easily: the check is taken over the stuffed bytes.
fn check_over_stuffed(prng: &mut Prng, line: Line, own: u8) -> Vec<u8> {
    let fields = fields(prng, line, own);
    let checked = line.content(&frame::stuffed(&fields));
    let check = &checked[checked.len() - line.check_length()..];
    frame::image(&[fields.as_slice(), check].concat())
}

/// Content over 64 bytes, though its check is right.
fn over_long(prng: &mut Prng, line: Line, own: u8) -> Vec<u8> {
    let length = match prng.below(3) {
        0 => prng.between(66, 140),
        _ => MOST_CONTENT + 1,
    };
    line.image(&fields_of(prng, line, own, length - line.check_length()))
}

/// Content under 4 bytes, mostly with a right check.
fn short(prng: &mut Prng, line: Line, own: u8) -> Vec<u8> {
    let length = prng.below(4);
    match length.checked_sub(line.check_length()) {
        Some(room) => line.image(&fields_of(prng, line, own, room)),
        None => frame::image(&fields_of(prng, line, own, length)),
    }
}

fn bad_pair(prng: &mut Prng, mut image: Vec<u8>) -> Vec<u8> {
    let place = prng.between(1, image.len() - 1);
    let partner = prng.pick(&[0x03, 0x04, START, STOP, PENDING, 0x80]);
    image.splice(place..place, [PENDING, partner]);
    image
}

/// One wire byte replaced, dropped, put in or doubled.
fn damaged(prng: &mut Prng, mut image: Vec<u8>) -> Vec<u8> {
    let place = prng.below(image.len());
    match prng.below(4) {
        0 => image[place] = byte(prng),
        1 => drop(image.remove(place)),
        2 => image.insert(place, byte(prng)),
        _ => image.insert(place, image[place]),
    }
    image
}

fn noise(prng: &mut Prng) -> Vec<u8> {
    let count = prng.between(1, 30);
    bytes(prng, count)
}

/// Noise that begins no frame.
fn quiet_noise(prng: &mut Prng) -> Vec<u8> {
    noise(prng)
        .into_iter()
        .filter(|&byte| byte != START)
        .collect()
}

/// So many bytes that bring no event outside a frame, and then a stretch.
pub fn long_stretch(prng: &mut Prng, line: Line, own: u8, count: usize) -> Vec<u8> {
    let mut silent = bytes(prng, count);
    match prng.below(3) {
        0 => silent.fill(START),
        _ => silent
            .iter_mut()
            .filter(|byte| **byte == START)
            .for_each(|byte| *byte = STOP),
    }
    [silent, stretch(prng, line, own)].concat()
}
