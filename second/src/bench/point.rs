//! The ops of the point reader and of its master.

use super::{number, room, written, World};
use crate::master::{Reply, Request};
use crate::reader::{Device, Last, Lent, Part, Reader};
use crate::search::Event;
use crate::{hex, refusal};

pub fn reader(world: &mut World, payload: &[u8]) -> Option<String> {
    let [event, antenna_count, rest @ ..] = payload else {
        return None;
    };
    let (store_room, rest) = room(rest)?;
    let (out_room, rest) = room(rest)?;
    let (antenna, fields) = rest.split_at_checked(usize::from(*antenna_count))?;
    let device = Device {
        header: &world.header,
        antenna,
    };
    let mut lent = Lent {
        store: &mut world.store[..store_room],
        out: &mut world.out[..out_room],
    };
    let outcome = world
        .reader
        .call(event_of(*event, fields).as_ref(), &device, &mut lent);
    let number = refusal::number(&outcome);
    let part = outcome.unwrap_or(Part::Out(0));
    let (buffer, length) = match part {
        Part::Out(length) => ("out", length),
        Part::Store(length) => ("store", length),
    };
    let bytes = hex::dotted(lent.part(part));
    Some(format!(
        "{number} {buffer} {length} {bytes} {}",
        record(&world.reader)
    ))
}

/// A byte over 6 is no event, as 0 is.
fn event_of(byte: u8, fields: &[u8]) -> Option<Event> {
    match byte {
        1 => Some(Event::Frame(fields.to_vec())),
        2 => Some(Event::Check(fields.to_vec())),
        3 => Some(Event::Short),
        4 => Some(Event::Long),
        5 => Some(Event::Pair),
        6 => Some(Event::Addr),
        _ => None,
    }
}

fn record(reader: &Reader) -> String {
    let last = match reader.last {
        Some(last) => format!(
            "{:02X}.{:02X} {}",
            last.identifier, last.command, last.length
        ),
        None => "- -".to_string(),
    };
    let parameter_05 = hex::dotted(&reader.parameter_05);
    let parameter_80 = hex::dotted(&reader.parameter_80);
    let kind = if reader.fast { "fast" } else { "slow" };
    format!(
        "{:02X} {parameter_05} {parameter_80} {last} {kind}",
        reader.speed
    )
}

pub fn power_on(world: &mut World, _: &[u8]) -> Option<String> {
    let outcome = world.reader.power_on();
    Some(format!(
        "{} {}",
        refusal::number(&outcome),
        record(&world.reader)
    ))
}

/// Any `has` but 0 is a last command, any `fast` but 0 a fast reader.
pub fn put_reader(world: &mut World, payload: &[u8]) -> Option<String> {
    let (&speed, rest) = payload.split_first()?;
    let (parameter_05, rest) = rest.split_first_chunk()?;
    let (parameter_80, rest) = rest.split_first_chunk()?;
    let [has, identifier, command, rest @ ..] = rest else {
        return None;
    };
    let (length, rest) = number(rest)?;
    let fast = *rest.first()?;
    let last = Last {
        identifier: *identifier,
        command: *command,
        length,
    };
    world.reader = Reader {
        speed,
        parameter_05: *parameter_05,
        parameter_80: *parameter_80,
        last: (*has != 0).then_some(last),
        fast: fast != 0,
    };
    Some(String::new())
}

/// Any `fast` but 0 is a fast reader.
pub fn fresh_reader(world: &mut World, payload: &[u8]) -> Option<String> {
    let fast = *payload.first()?;
    world.reader = Reader::fresh(fast != 0);
    Some(record(&world.reader))
}

pub fn put_header(world: &mut World, payload: &[u8]) -> Option<String> {
    world.header = *payload.first_chunk()?;
    Some(String::new())
}

pub fn buffers(world: &mut World, _: &[u8]) -> Option<String> {
    Some(format!(
        "{} {}",
        hex::dotted(&world.out),
        hex::dotted(&world.store)
    ))
}

pub fn request(_: &mut World, payload: &[u8]) -> Option<String> {
    let (room, rest) = room(payload)?;
    let [identifier, code, data @ ..] = rest else {
        return None;
    };
    let request = Request {
        identifier: *identifier,
        code: *code,
        data,
    };
    Some(written(room, |out| request.write(out)))
}

pub fn reply(_: &mut World, payload: &[u8]) -> Option<String> {
    let [identifier, code, count, rest @ ..] = payload else {
        return None;
    };
    let (data, reply) = rest.split_at_checked(usize::from(*count))?;
    let request = Request {
        identifier: *identifier,
        code: *code,
        data,
    };
    let fields = match request.read(reply) {
        Ok(Reply::Ack) => "0 ACK -".to_string(),
        Ok(Reply::Nack(number)) => format!("0 NACK {number}"),
        Ok(Reply::Data(data)) => format!("0 DATA {}", hex::dotted(&data)),
        Err(refusal) => format!("{} - -", refusal as u8),
    };
    Some(fields)
}
