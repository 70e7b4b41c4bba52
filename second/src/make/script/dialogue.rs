//! Scenes of the point line's two ends: requests, and the replies the master reads.

use super::{link, reader, Script};
use crate::command::{ACK, ACKNOWLEDGEMENT, HEADER_LENGTH};
use crate::frame::{Line, START};
use crate::make::prng::Prng;
use crate::make::wire;

/// A request and a reply that answers it.
pub struct Talk {
    pub identifier: u8,
    pub code: u8,
    pub data: Vec<u8>,
    /// The device header, where it is asked for.
    pub header: Vec<u8>,
    pub antenna: Vec<u8>,
    pub reply: Vec<u8>,
}

impl Talk {
    /// Identifier, code and data.
    pub fn request(&self) -> Vec<u8> {
        [&[self.identifier, self.code], self.data.as_slice()].concat()
    }
}

/// A request that a reader executes.
pub fn good(prng: &mut Prng) -> Talk {
    let identifier = match prng.below(3) {
        0 => wire::byte(prng),
        _ => prng.pick(&[0x00, 0x01, 0x02, START]),
    };
    let code = prng.pick(&[0x00, 0x01, 0x01, 0x02, 0x02, 0x10, 0x14, 0x18]);
    let (parameter, length) = prng.pick(&[(0x02, 1), (0x05, 4), (0x80, 8)]);
    let value = match parameter {
        0x02 => vec![prng.pick(&[3, 4, 7, 8, 9, 10])],
        _ => wire::bytes(prng, length),
    };
    let card = match code {
        0x18 => 5,
        _ => prng.pick(&[1, 5, 6, 8]),
    };
    let antenna = wire::bytes(prng, card);
    let header = match code {
        0x00 => header(prng, identifier),
        _ => vec![],
    };
    let (data, answer) = match code {
        0x00 => (vec![], header.clone()),
        0x01 => ([&[parameter], value.as_slice()].concat(), vec![ACK]),
        0x02 => (vec![parameter], value),
        _ => (vec![], antenna.clone()),
    };
    let command = match code {
        0x01 => ACKNOWLEDGEMENT,
        _ => code,
    };
    let reply = [&[identifier, command], answer.as_slice()].concat();
    Talk {
        identifier,
        code,
        data,
        header,
        antenna,
        reply,
    }
}

/// A device header: as at first, any, all of it stuffed in the reply, or the check there as well.
fn header(prng: &mut Prng, identifier: u8) -> Vec<u8> {
    match prng.below(4) {
        0 => (0..HEADER_LENGTH as u8).collect(),
        1 => wire::bytes(prng, HEADER_LENGTH),
        2 => wire::stuffed_bytes(prng, HEADER_LENGTH),
        _ => all_stuffed(prng, identifier),
    }
}

/// A header of which, and of the reply's check, every byte is stuffed: one of some thousand is so.
fn all_stuffed(prng: &mut Prng, identifier: u8) -> Vec<u8> {
    loop {
        let header = wire::stuffed_bytes(prng, HEADER_LENGTH);
        let content = Line::Point.content(&[&[identifier, 0x00], header.as_slice()].concat());
        if content[2..].iter().all(|&byte| byte >= START) {
            return header;
        }
    }
}

/// A request that may be unacceptable in one way.
pub fn any(prng: &mut Prng) -> Talk {
    let mut talk = good(prng);
    match prng.below(12) {
        0 => talk.code = prng.pick(&[0x03, 0x11, 0x1C, 0x2A, 0x55, 0xFF]),
        1 => talk.data.push(wire::byte(prng)),
        2 => drop(talk.data.pop()),
        3 => talk.data = vec![prng.pick(&[0x00, 0x03, 0x04, 0x06, 0x7F, 0x81]), 0x03],
        4 => {
            talk.code = 0x01;
            talk.data = vec![0x02, prng.pick(&[0, 2, 3, 7, 8, 10, 11, 255])];
        }
        5 => talk.antenna.clear(),
        _ => {}
    }
    talk
}

/// A request written, received in pieces, answered by the reader, and the reply read.
pub fn exchange(script: &mut Script) {
    let talk = any(&mut script.prng);
    let request = talk.request();
    typed(script, &request);
    link::pieces(script, 0x10, &Line::Point.image(&request));
    put_header(script, &talk);
    let rooms = script.prng.pick(&[
        [600, 600],
        [130, 130],
        [255, 130],
        [130, 256],
        [512, 601],
        [65535, 512],
        [129, 130],
        [130, 129],
    ]);
    reader::call(script, reader::FRAME, rooms, &talk.antenna, &request);
    if script.prng.percent(50) {
        link::pieces(script, 0x10, &Line::Point.image(&talk.reply));
    }
    read(script, &talk, &talk.reply);
}

fn typed(script: &mut Script, request: &[u8]) {
    let image = Line::Point.image(request);
    let room = link::room(&mut script.prng, image.len());
    script.record(0x24, &[&room, request].concat());
}

/// A write of this speed.
pub fn write_speed(identifier: u8, speed: u8) -> Talk {
    Talk {
        identifier,
        code: 0x01,
        data: vec![0x02, speed],
        header: vec![],
        antenna: vec![],
        reply: vec![identifier, ACKNOWLEDGEMENT, ACK],
    }
}

/// A write of a speed, typed, with the answers of a fast reader and of a slow one (02, L2).
pub fn both_answers(script: &mut Script, write: &Talk) {
    typed(script, &write.request());
    read(script, write, &write.reply);
    read(script, write, &[write.identifier, ACKNOWLEDGEMENT, 3]);
}

/// Puts the header asked for, mostly.
pub fn put_header(script: &mut Script, talk: &Talk) {
    if talk.code == 0x00 && script.prng.percent(80) {
        script.record(0x27, &talk.header);
    }
}

fn read(script: &mut Script, talk: &Talk, reply: &[u8]) {
    let head = [talk.identifier, talk.code, talk.data.len() as u8];
    script.record(0x25, &[&head, talk.data.as_slice(), reply].concat());
}

/// Replies that are off by a little in one field or in two.
pub fn replies(script: &mut Script) {
    for _ in 0..script.prng.between(2, 8) {
        let talk = match script.prng.below(8) {
            0 => any(&mut script.prng),
            _ => good(&mut script.prng),
        };
        let mut reply = near(&mut script.prng, &talk);
        if script.prng.percent(20) && !reply.is_empty() {
            let place = script.prng.below(reply.len());
            reply[place] = reply[place].wrapping_add(1);
        }
        read(script, &talk, &reply);
    }
}

fn near(prng: &mut Prng, talk: &Talk) -> Vec<u8> {
    let reason = match prng.below(3) {
        0 => prng.pick(&[0, 7, ACK - 1, ACK, ACK + 1, 0xFF]),
        _ => prng.between(1, 6) as u8,
    };
    let acknowledgement = vec![talk.identifier, ACKNOWLEDGEMENT, reason];
    let mut reply = talk.reply.clone();
    match prng.below(12) {
        0..=2 => reply = acknowledgement,
        3 => reply = [acknowledgement, vec![reason]].concat(),
        4 => reply = acknowledgement[..2].to_vec(),
        5 => reply.truncate(prng.below(2)),
        6 => reply[0] = reply[0].wrapping_sub(1),
        7 => reply[1] = prng.pick(&[talk.code, 0x29, 0x2B, 0x00, 0x10]),
        8 => reply.push(wire::byte(prng)),
        9 => drop(reply.pop()),
        10 => {
            let length = prng.pick(&[0, 1, 4, 5, 6, 8, 9]);
            reply.truncate(2);
            reply.extend(wire::bytes(prng, length));
        }
        _ => {}
    }
    reply
}
