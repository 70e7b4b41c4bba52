//! Random bench scripts: scenes that make sense, mixed with records of every op.

mod dialogue;
mod link;
mod reader;

use super::prng::Prng;
use super::wire;

/// Each op with the least payload it takes (BENCH.md, 'Ops').
const OPS: [(u8, usize); 17] = [
    (0x01, 4),
    (0x02, 5),
    (0x03, 0),
    (0x04, 0),
    (0x05, 0),
    (0x10, 0),
    (0x11, 1),
    (0x12, 0),
    (0x13, 6),
    (0x20, 6),
    (0x21, 0),
    (0x22, 19),
    (0x23, 0),
    (0x24, 4),
    (0x25, 3),
    (0x26, 1),
    (0x27, 40),
];
const MOST_PAYLOAD: usize = u16::MAX as usize;
/// The most bytes of each buffer (BENCH.md, 'What lives from record to record').
const MOST_ROOM: usize = 600;

/// A script as it grows.
struct Script {
    prng: Prng,
    bytes: Vec<u8>,
}

pub fn script(seed: u64) -> Vec<u8> {
    let mut script = Script {
        prng: Prng::new(seed),
        bytes: Vec::new(),
    };
    let scenes = match script.prng.below(20) {
        0 => 0,
        1..=3 => script.prng.between(1, 5),
        4..=17 => script.prng.between(20, 120),
        _ => script.prng.between(200, 500),
    };
    for _ in 0..scenes {
        scene(&mut script);
    }
    ending(&mut script);
    script.bytes
}

impl Script {
    fn record(&mut self, op: u8, payload: &[u8]) {
        let payload = &payload[..payload.len().min(MOST_PAYLOAD)];
        self.bytes.push(op);
        self.bytes.extend(two(payload.len()));
        self.bytes.extend(payload);
    }
}

/// A number in two bytes, low byte first; the greatest for one that has no room there.
fn two(number: usize) -> [u8; 2] {
    u16::try_from(number).unwrap_or(u16::MAX).to_le_bytes()
}

/// A length over one byte or about that, now and then the greatest.
fn long(prng: &mut Prng) -> usize {
    match prng.below(40) {
        0 => MOST_PAYLOAD,
        1..=20 => prng.pick(&[254, 255, 256, 257, 511, 512, 513]),
        _ => prng.between(256, 1500),
    }
}

fn scene(script: &mut Script) {
    match script.prng.below(22) {
        0..=1 => link::writers(script),
        2 => link::checks(script),
        3..=4 => link::point_pieces(script),
        5..=6 => link::addressed_pieces(script),
        7..=9 => link::put_record(script),
        10..=12 => dialogue::exchange(script),
        13 => dialogue::replies(script),
        14..=15 => reader::repeats(script),
        16 => reader::any_call(script),
        17 => reader::put_record(script),
        18..=19 => reader::speeds(script),
        20 => short(script),
        _ => anything(script),
    }
}

/// A payload shorter than its fixed part, where the op has one.
fn short(script: &mut Script) {
    let (op, least) = script.prng.pick(&OPS);
    let length = script.prng.below(least.max(1));
    let payload = wire::bytes(&mut script.prng, length);
    script.record(op, &payload);
}

/// Any op with any payload.
fn anything(script: &mut Script) {
    let (op, least) = script.prng.pick(&OPS);
    let length = match script.prng.below(10) {
        0 => script.prng.below(256),
        1 => long(&mut script.prng),
        _ => least + script.prng.below(12),
    };
    let payload = wire::bytes(&mut script.prng, length);
    script.record(op, &payload);
}

/// The script's last row: `end`, `cut` or `bad`.
fn ending(script: &mut Script) {
    let (op, _) = script.prng.pick(&OPS);
    match script.prng.below(12) {
        0..=5 => {}
        6 => script.bytes.push(op),
        7 => {
            let low = script.prng.pick(&[0, 1, 40, 255]);
            script.bytes.extend([op, low]);
        }
        8..=9 => {
            let length = script
                .prng
                .pick(&[1, 2, 5, 255, 256, 257, 512, MOST_PAYLOAD]);
            let there = match script.prng.below(3) {
                0 => length - 1,
                _ => script.prng.below(length.min(300)),
            };
            script.bytes.push(op);
            script.bytes.extend(two(length));
            script.bytes.extend(vec![op; there]);
        }
        10 => script
            .bytes
            .push(script.prng.pick(&[0x00, 0x06, 0x14, 0x28, 0x2F])),
        _ => {
            let unknown = script.prng.pick(&[0x00, 0x0F, 0x1F, 0x28, 0x2F, 0xFF]);
            script.bytes.extend([unknown, 0x00, 0x00, op]);
        }
    }
}
