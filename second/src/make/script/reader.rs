//! Scenes of the point reader alone: repeats, calls at the edges, records put, speeds.

use super::dialogue::{self, Talk};
use super::link::EDGE_NUMBERS;
use super::{long, two, Script, MOST_ROOM};
use crate::command::HEADER_LENGTH;
use crate::frame::START;
use crate::make::prng::Prng;
use crate::make::wire;

pub const FRAME: u8 = 1;
const CHECK: u8 = 2;
const WHOLE: [usize; 2] = [MOST_ROOM, MOST_ROOM];

/// A call of the reader; the rooms are those of store and out.
pub fn call(script: &mut Script, event: u8, rooms: [usize; 2], antenna: &[u8], fields: &[u8]) {
    let head = [event, antenna.len() as u8];
    let rooms = rooms.map(two).concat();
    script.record(0x20, &[&head, rooms.as_slice(), antenna, fields].concat());
}

/// A command executed, something in between, and its repeat.
pub fn repeats(script: &mut Script) {
    let talk = dialogue::good(&mut script.prng);
    dialogue::put_header(script, &talk);
    call(script, FRAME, WHOLE, &talk.antenna, &talk.request());
    for _ in 0..script.prng.below(3) {
        between(script, &talk);
    }
    let mut again = talk.request();
    match script.prng.below(4) {
        0 => again.truncate(2),
        1 => again.extend([0x00, 0xFD]),
        _ => {}
    }
    let rooms = [WHOLE, [130, 130], [200, 131], [512, 255], [256, 65535]];
    let rooms = script.prng.pick(&rooms);
    call(script, FRAME, rooms, &[], &again);
    if script.prng.percent(30) {
        script.record(0x23, &[]);
    }
}

/// What may come between a command and its repeat.
fn between(script: &mut Script, talk: &Talk) {
    let request = talk.request();
    let rooms = WHOLE;
    match script.prng.below(10) {
        0 => script.record(0x21, &[]),
        1 => call(script, FRAME, [129, 130], &[], &request),
        2 => call(script, FRAME, rooms, &[0; 9], &request),
        3 => call(script, FRAME, rooms, &[], &[talk.identifier, 0x55]),
        4 => call(script, FRAME, rooms, &[], &[talk.identifier, 0x02]),
        5 => call(script, CHECK, rooms, &[], &request),
        6 => call(script, FRAME, rooms, &[], &[talk.identifier ^ 1, 0x10]),
        7 => call(script, 3, rooms, &[], &[]),
        8 => {
            let header = wire::bytes(&mut script.prng, HEADER_LENGTH);
            script.record(0x27, &header);
        }
        _ => {
            let length = length(&mut script.prng);
            put(script, 3, [1, talk.identifier, talk.code], length);
        }
    }
}

/// A call with any event, rooms, antenna and content, mostly at the edges.
pub fn any_call(script: &mut Script) {
    let prng = &mut script.prng;
    let event = prng.pick(&[0, 1, 1, 1, 2, 2, 3, 4, 5, 6, 7, 0xFF]);
    let rooms = [edge_room(prng), edge_room(prng)];
    let count = prng.pick(&[0, 0, 1, 4, 5, 6, 8, 9, 20]);
    let antenna = wire::bytes(prng, count);
    let fields = match prng.below(12) {
        0..=2 => {
            let length = prng.pick(&[0, 1, 2, 3, 61, 62, 63, 100]);
            wire::bytes(prng, length)
        }
        3 => {
            let length = long(prng);
            wire::bytes(prng, length)
        }
        _ => dialogue::any(prng).request(),
    };
    call(script, event, rooms, &antenna, &fields);
}

fn edge_room(prng: &mut Prng) -> usize {
    match prng.below(10) {
        0 => prng.pick(&[0, 1, 128, 129]),
        1..=4 => 130,
        5..=6 => prng.between(MOST_ROOM - 2, MOST_ROOM + 2),
        _ => prng.pick(&[131, 255, 256, 257, 385, 386, 511, 512, 513, 33024, 65535]),
    }
}

/// A length to remember.
fn length(prng: &mut Prng) -> usize {
    match prng.below(3) {
        0 => prng.pick(&[0, 1, 7, 46, 89]),
        1 => prng.pick(&[129, 130, 131]),
        _ => prng.pick(&EDGE_NUMBERS),
    }
}

/// Any reader record, and calls of it; a sound one at the end, mostly.
pub fn put_record(script: &mut Script) {
    let prng = &mut script.prng;
    let speed = prng.pick(&[0, 2, 3, 3, 7, 8, 9, 10, 11, 255]);
    let length = length(prng);
    let last = [prng.pick(&[0, 1, 1, 2]), wire::byte(prng), wire::byte(prng)];
    put(script, speed, last, length);
    call(script, FRAME, WHOLE, &[], &last[1..]);
    if script.prng.percent(50) {
        any_call(script);
    }
    script.record(0x21, &[]);
    if script.prng.percent(90) {
        put(script, 3, [0, 0, 0], length);
    }
}

/// Puts a record, slow or fast; `last` is whether there is a last command, then identifier and
/// command.
fn put(script: &mut Script, speed: u8, last: [u8; 3], length: usize) {
    let parameters = wire::bytes(&mut script.prng, 12);
    let [low, high] = two(length);
    let tail = [low, high, fast(&mut script.prng)];
    let record = [&[speed], parameters.as_slice(), &last, &tail].concat();
    script.record(0x22, &record);
}

/// Makes a reader, slow or fast.
fn fresh(script: &mut Script) {
    let fast = fast(&mut script.prng);
    script.record(0x26, &[fast]);
}

/// 0 is slow, any other fast.
fn fast(prng: &mut Prng) -> u8 {
    prng.pick(&[0, 0, 0, 1, 1, 2, 0x80, 0xFF])
}

/// Speeds written to a slow or a fast reader, the mains cut now and then: the same identifier and
/// command come again, and the speed is read (02, L2).
pub fn speeds(script: &mut Script) {
    let was_put = script.prng.percent(30);
    if was_put {
        let speed = speed(&mut script.prng);
        put(script, speed, [0, 0, 0], 0);
    } else if script.prng.percent(80) {
        fresh(script);
    }
    let identifier = script.prng.pick(&[0x00, 0x01, 0x01, START]);
    for _ in 0..script.prng.between(1, 4) {
        let first = speed(&mut script.prng);
        let second = match script.prng.below(3) {
            0 => first,
            _ => speed(&mut script.prng),
        };
        for speed in [first, second] {
            let write = dialogue::write_speed(identifier, speed);
            call(script, FRAME, WHOLE, &[], &write.request());
            match script.prng.below(10) {
                0..=3 => script.record(0x21, &[]),
                4 => script.record(0x23, &[]),
                5 => dialogue::both_answers(script, &write),
                _ => {}
            }
        }
        call(script, FRAME, WHOLE, &[], &[identifier, 0x02, 0x02]);
    }
    // What was put may be refused all the time.
    if was_put {
        fresh(script);
    }
}

/// A speed, or a byte beside them.
fn speed(prng: &mut Prng) -> u8 {
    prng.pick(&[2, 3, 4, 5, 6, 7, 7, 8, 8, 9, 9, 10, 10, 11])
}
