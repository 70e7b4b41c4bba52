//! The bench program: a script of records, one row for each (BENCH.md).

mod link;
mod point;

use crate::command::HEADER_LENGTH;
use crate::hex;
use crate::reader::Reader;
use crate::receiver::Receiver;
use crate::refusal::{self, Refusal};
use crate::station::{Station, MASTER};

/// The size of the reader's two buffers, and the greatest room.
const BUFFER: usize = 600;
const UNTOUCHED: u8 = 0xEE;

/// What lives from record to record.
pub struct World {
    point_receiver: Receiver,
    addressed_receiver: Receiver,
    reader: Reader,
    /// The device header that the reader is given.
    header: [u8; HEADER_LENGTH],
    store: [u8; BUFFER],
    out: [u8; BUFFER],
}

/// An op takes a payload and gives the row's fields, or none where the payload is short.
type Op = fn(&mut World, &[u8]) -> Option<String>;

fn op(number: u8) -> Option<Op> {
    let op: Op = match number {
        0x01 => link::point_writer,
        0x02 => link::addressed_writer,
        0x03 => link::asked_length,
        0x04 => link::fcs,
        0x05 => link::sum,
        0x10 => link::point_receiver,
        0x11 => link::new_station,
        0x12 => link::addressed_receiver,
        0x13 => link::put_receiver,
        0x20 => point::reader,
        0x21 => point::power_on,
        0x22 => point::put_reader,
        0x23 => point::buffers,
        0x24 => point::request,
        0x25 => point::reply,
        0x26 => point::fresh_reader,
        0x27 => point::put_header,
        _ => return None,
    };
    Some(op)
}

/// The rows for a script.
pub fn rows(script: &[u8]) -> String {
    let mut world = World::fresh();
    let mut text = String::new();
    let mut rest = script;
    for done in 0.. {
        let [number, behind @ ..] = rest else {
            return text + &format!("end {done}\n");
        };
        let Some(op) = op(*number) else {
            return text + &format!("bad {done}\n");
        };
        let Some((payload, next)) = payload(behind) else {
            return text + &format!("cut {done}\n");
        };
        let fields = op(&mut world, payload).unwrap_or("short".to_string());
        let row = format!("{number:02X} {fields}");
        // Ops 13, 22 and 27 write nothing after the op.
        text.push_str(row.trim_end());
        text.push('\n');
        rest = next;
    }
    text
}

/// The payload behind an op byte, and what follows it.
pub fn payload(behind: &[u8]) -> Option<(&[u8], &[u8])> {
    let (length, behind) = number(behind)?;
    behind.split_at_checked(length)
}

/// A number of two bytes, low byte first, and what follows it.
fn number(bytes: &[u8]) -> Option<(usize, &[u8])> {
    let (&two, rest) = bytes.split_first_chunk()?;
    Some((usize::from(u16::from_le_bytes(two)), rest))
}

/// A room, and what follows it.
fn room(bytes: &[u8]) -> Option<(usize, &[u8])> {
    let (room, rest) = number(bytes)?;
    Some((room.min(BUFFER), rest))
}

impl World {
    fn fresh() -> World {
        World {
            point_receiver: Receiver::fresh(Station::Point),
            addressed_receiver: Receiver::fresh(Station::Addressed(MASTER)),
            reader: Reader::fresh(true),
            header: std::array::from_fn(|place| place as u8),
            store: [UNTOUCHED; BUFFER],
            out: [UNTOUCHED; BUFFER],
        }
    }
}

/// The fields of a call that writes to a fresh buffer: refusal, count, the whole buffer.
fn written(room: usize, write: impl FnOnce(&mut [u8]) -> Result<usize, Refusal>) -> String {
    let mut buffer = vec![UNTOUCHED; room];
    let outcome = write(&mut buffer);
    format!("{} {}", counted(outcome), hex::dotted(&buffer))
}

/// The refusal number, and the count or 0.
fn counted(outcome: Result<usize, Refusal>) -> String {
    format!("{} {}", refusal::number(&outcome), outcome.unwrap_or(0))
}

#[cfg(test)]
mod tests {
    use super::*;

    #[test]
    fn a_length_is_two_bytes_low_byte_first() {
        let long = [&[0x05, 0x01, 0x01], &[1; 257][..], &[0x05, 0, 0]].concat();
        assert_eq!(rows(&long), "05 01\n05 00\nend 2\n");
    }

    #[test]
    fn cut_behind_an_op_inside_a_length_and_inside_a_payload() {
        let script = [[0x05, 0, 1].as_slice(), &[1; 256]].concat();
        for length in 1..script.len() {
            assert_eq!(rows(&script[..length]), "cut 0\n");
        }
        assert_eq!(rows(&script), "05 00\nend 1\n");
        assert_eq!(rows(&[]), "end 0\n");
        assert_eq!(rows(&[0x06]), "bad 0\n");
    }

    /// The bytes of the buffer that a point writer leaves in this room.
    fn buffer(room: u16) -> usize {
        let [low, high] = room.to_le_bytes();
        let text = rows(&[0x01, 4, 0, low, high, 0, 0]);
        let row = text.lines().next().unwrap();
        assert!(row.starts_with("01 0 6 FD.00.00.47.0F.FE.EE"));
        row.rsplit(' ').next().unwrap().split('.').count()
    }

    #[test]
    fn a_room_over_600_counts_as_600() {
        let rooms = [255, 256, 512, 600, 601, 65535];
        assert_eq!(rooms.map(buffer), [255, 256, 512, 600, 600, 600]);
    }

    #[test]
    fn a_header_is_put_whole_or_not_at_all() {
        let ask = [0x20, 8, 0, 1, 0, 130, 0, 130, 0, 0, 0];
        let first = rows(&ask);
        let short = [&[0x27, 39, 0], &[7; 39][..], &ask].concat();
        assert_eq!(
            rows(&short),
            format!("27 short\n{}", first.replace("end 1", "end 2"))
        );
        let put = [&[0x27, 41, 0], &[0xFE; 41][..], &ask].concat();
        let sent = format!("27\n20 0 out 87 FD.00.00{}", ".FF.01".repeat(40));
        assert!(rows(&put).starts_with(&sent));
    }

    /// The row of an op whose fields are the reader's record alone or behind a refusal number.
    fn row(op: &str, speed: u8, kind: &str) -> String {
        format!("{op} {speed:02X} 00.00.00.00 00.00.00.00.00.00.00.00 - - {kind}\n")
    }

    #[test]
    fn a_reader_is_fresh_and_fast_at_first_and_made_slow_at_0_alone() {
        assert_eq!(rows(&[0x21, 0, 0]), row("21 0", 3, "fast") + "end 1\n");
        for (byte, kind) in [(0, "slow"), (1, "fast"), (0x80, "fast"), (0xFF, "fast")] {
            let made = row("26", 3, kind) + &row("21 0", 3, kind) + "end 2\n";
            assert_eq!(rows(&[0x26, 1, 0, byte, 0x21, 0, 0]), made);
        }
    }

    #[test]
    fn a_record_is_put_slow_at_0_alone() {
        let put = |fast| [&[0x22, 19, 0, 8], &[0; 17][..], &[fast, 0x21, 0, 0]].concat();
        let rows_of = |row: String| format!("22\n{row}end 2\n");
        assert_eq!(rows(&put(0)), rows_of(row("21 4", 8, "slow")));
        assert_eq!(rows(&put(1)), rows_of(row("21 0", 3, "fast")));
        assert_eq!(rows(&put(0xFF)), rows_of(row("21 0", 3, "fast")));
    }
}
