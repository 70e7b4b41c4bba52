//! The ops of the two lines: writers, checks, receivers.

use super::{counted, number, room, written, World};
use crate::receiver::{Phase, Receiver};
use crate::station::Station;
use crate::{fcs as check, frame, hex, refusal, search, writer};

pub fn point_writer(_: &mut World, payload: &[u8]) -> Option<String> {
    let (room, rest) = room(payload)?;
    let [identifier, command, data @ ..] = rest else {
        return None;
    };
    Some(written(room, |out| {
        writer::point(out, *identifier, *command, data)
    }))
}

pub fn addressed_writer(_: &mut World, payload: &[u8]) -> Option<String> {
    let (room, rest) = room(payload)?;
    let (head, data) = rest.split_first_chunk()?;
    Some(written(room, |out| writer::addressed(out, *head, data)))
}

pub fn asked_length(_: &mut World, content: &[u8]) -> Option<String> {
    Some(counted(writer::asked_length(content)))
}

pub fn fcs(_: &mut World, bytes: &[u8]) -> Option<String> {
    Some(format!(
        "{:04X} {:04X}",
        check::fcs(bytes),
        check::field(bytes)
    ))
}

pub fn sum(_: &mut World, bytes: &[u8]) -> Option<String> {
    Some(format!("{:02X}", frame::sum(bytes)))
}

pub fn point_receiver(world: &mut World, piece: &[u8]) -> Option<String> {
    Some(receiver(&mut world.point_receiver, piece))
}

pub fn addressed_receiver(world: &mut World, piece: &[u8]) -> Option<String> {
    Some(receiver(&mut world.addressed_receiver, piece))
}

fn receiver(receiver: &mut Receiver, piece: &[u8]) -> String {
    let outcome = receiver.call(piece);
    let number = refusal::number(&outcome);
    let (event, taken) = outcome.unwrap_or((None, 0));
    let name = event.as_ref().map_or("NONE", search::Event::name);
    let fields = event.as_ref().map_or(&[][..], search::Event::fields);
    format!("{number} {name} {taken} {}", hex::dotted(fields))
}

pub fn new_station(world: &mut World, payload: &[u8]) -> Option<String> {
    let outcome = Station::new(*payload.first()?);
    let number = refusal::number(&outcome);
    if let Ok(station) = outcome {
        world.addressed_receiver = Receiver::fresh(station);
    }
    Some(number.to_string())
}

/// Any line but 0 is addressed, any phase but 0 and 1 is after FF.
pub fn put_receiver(world: &mut World, payload: &[u8]) -> Option<String> {
    let [line, address, phase, rest @ ..] = payload else {
        return None;
    };
    let (count, rest) = number(rest)?;
    let fill = *rest.first()?;
    let phase = match phase {
        0 => Phase::Outside,
        1 => Phase::Inside,
        _ => Phase::AfterFf,
    };
    let content = vec![fill; count];
    if *line == 0 {
        world.point_receiver = Receiver::put(Station::Point, phase, &content);
    } else {
        world.addressed_receiver = Receiver::put(Station::Addressed(*address), phase, &content);
    }
    Some(String::new())
}
