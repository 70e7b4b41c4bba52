//! A tape and its listing (01, 'The listing program').

use crate::hex;
use crate::search::{self, Event, Found};
use crate::station::{Station, MASTER};

pub const POINT_BYTE: u8 = 0x01;
pub const ADDRESSED_BYTE: u8 = 0x02;

/// A record is its kind and one byte of body.
pub const RECORD: usize = 2;
pub const MOST_RECORDS: usize = u32::MAX as usize;

const FULL: &str = "full";

/// A line as a tape has it.
pub struct Channel {
    kind: u8,
    pub letter: char,
    /// Who hears it.
    pub station: Station,
}

/// The point line first.
pub const CHANNELS: [Channel; 2] = [
    Channel {
        kind: POINT_BYTE,
        letter: 'P',
        station: Station::Point,
    },
    Channel {
        kind: ADDRESSED_BYTE,
        letter: 'A',
        station: Station::Addressed(MASTER),
    },
];

/// What is read of a tape: its whole records, and the last line's word.
pub struct Tape<'a> {
    records: &'a [u8],
    last_word: &'static str,
}

impl Tape<'_> {
    pub fn read(bytes: &[u8], most: usize) -> Tape<'_> {
        let mut kinds = bytes.iter().step_by(RECORD).take(most);
        let known = |kind: &u8| [POINT_BYTE, ADDRESSED_BYTE].contains(kind);
        let (last_word, count) = if let Some(number) = kinds.position(|kind| !known(kind)) {
            ("bad", number)
        } else if bytes.len() > most * RECORD {
            (FULL, most)
        } else if bytes.len() % RECORD != 0 {
            ("cut", bytes.len() / RECORD)
        } else {
            ("end", bytes.len() / RECORD)
        };
        Tape {
            records: &bytes[..count * RECORD],
            last_word,
        }
    }

    /// Whether a byte follows the most records.
    pub fn is_full(&self) -> bool {
        self.last_word == FULL
    }

    /// The bytes heard on a line, each with the number of records before its own.
    pub fn heard(&self, channel: &Channel) -> impl Iterator<Item = (usize, u8)> + use<'_> {
        let kind = channel.kind;
        self.records
            .chunks_exact(RECORD)
            .enumerate()
            .filter(move |(_, record)| record[0] == kind)
            .map(|(number, record)| (number, record[1]))
    }

    pub fn last_line(&self) -> String {
        format!("{} {}\n", self.last_word, self.records.len() / RECORD)
    }
}

pub fn listing(tape: &[u8]) -> String {
    let tape = Tape::read(tape, MOST_RECORDS);
    let mut lines: Vec<(usize, String)> = CHANNELS
        .iter()
        .flat_map(|channel| line_events(&tape, channel))
        .collect();
    lines.sort_by_key(|(number, _)| *number);

    let mut text = "record line event content\n".to_string();
    for (_, line) in lines {
        text.push_str(&line);
    }
    text + &tape.last_line()
}

/// The lines for the events of one line, each with the number of records before it.
fn line_events(tape: &Tape, channel: &Channel) -> Vec<(usize, String)> {
    let (numbers, stream): (Vec<usize>, Vec<u8>) = tape.heard(channel).unzip();
    let line = |found: Found| {
        let number = numbers[found.place];
        let content = match &found.event {
            Event::Frame(fields) => hex::dotted(fields),
            _ => "-".to_string(),
        };
        let (letter, name) = (channel.letter, found.event.name());
        (number, format!("{number} {letter} {name} {content}\n"))
    };
    search::events(channel.station, &stream, 0)
        .map(line)
        .collect()
}

#[cfg(test)]
mod tests {
    use super::*;

    #[test]
    fn example_of_01() {
        let point = [0xFD, 0x00, 0x00, 0x47, 0x0F, 0xFE].map(|byte| [0x01, byte]);
        let addressed = [0xFD, 0x00, 0x01, 0x2A, 0x55, 0x80, 0xFE].map(|byte| [0x02, byte]);
        let tape = [point.concat(), addressed.concat()].concat();
        let lines = "record line event content\n5 P FRAME 00.00\n12 A FRAME 00.01.2A.55\nend 13\n";
        assert_eq!(listing(&tape), lines);
    }

    #[test]
    fn a_byte_after_the_most_records_is_full() {
        assert_eq!(Tape::read(&[1, 0, 2, 0], 2).last_line(), "end 2\n");
        assert_eq!(Tape::read(&[1, 0, 2, 0, 9], 2).last_line(), "full 2\n");
    }
}
