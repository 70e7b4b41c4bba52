//! The report of a tape: what the planner reserves against what was heard (02, L1).
//!
//! What is inside an image is counted where it was heard, from its FD to its FE; what is reserved
//! for it comes from its content.

use std::cmp::Reverse;

use crate::frame::START;
use crate::refusal::Refusal;
use crate::search::{self, Event};
use crate::tape::{Channel, Tape, CHANNELS, MOST_RECORDS};

pub fn report(tape: &[u8]) -> Result<String, Refusal> {
    report_up_to(tape, MOST_RECORDS)
}

fn report_up_to(tape: &[u8], most: usize) -> Result<String, Refusal> {
    let tape = Tape::read(tape, most);
    if tape.is_full() {
        return Err(Refusal::TapeTooLong);
    }
    let mut lines = CHANNELS.map(|channel| Totals::of(&tape, &channel));
    // Lines heard equally keep their order.
    lines.sort_by_key(|totals| Reverse(totals.heard));

    let mut text = "line frames heard inside reserved difference\n".to_string();
    for totals in lines {
        text.push_str(&totals.line());
    }
    Ok(text + &tape.last_line())
}

/// The totals of one line.
struct Totals {
    letter: char,
    frames: u64,
    heard: u64,
    inside: u64,
    reserved: u64,
}

impl Totals {
    fn of(tape: &Tape, channel: &Channel) -> Totals {
        let stream: Vec<u8> = tape.heard(channel).map(|(_, byte)| byte).collect();
        let mut totals = Totals {
            letter: channel.letter,
            frames: 0,
            heard: stream.len() as u64,
            inside: 0,
            reserved: 0,
        };
        for found in search::events(channel.station, &stream, 0) {
            if let Event::Frame(fields) = found.event {
                let content = fields.len() + channel.station.line().check_length();
                totals.frames += 1;
                totals.inside += wire_length(&stream[..=found.place]);
                totals.reserved += reserved(content);
            }
        }
        totals
    }

    fn line(&self) -> String {
        let Totals {
            letter,
            frames,
            heard,
            inside,
            reserved,
        } = self;
        let difference = i128::from(*reserved) - i128::from(*heard);
        format!("{letter} {frames} {heard} {inside} {reserved} {difference}\n")
    }
}

/// The length of the image that a stream ends with: no FD stands inside an image.
fn wire_length(stream: &[u8]) -> u64 {
    let behind_start = stream.iter().rev().take_while(|&&byte| byte != START);
    1 + behind_start.count() as u64
}

/// What the planner reserves for a frame: every content byte may be stuffed.
fn reserved(content: usize) -> u64 {
    2 + 2 * content as u64
}

#[cfg(test)]
mod tests {
    use super::*;

    #[test]
    fn a_byte_after_the_most_records_is_refused() {
        let head = "line frames heard inside reserved difference";
        let lines = |last| Ok(format!("{head}\nP 0 1 0 0 -1\nA 0 1 0 0 -1\n{last}\n"));
        assert_eq!(report_up_to(&[1, 0, 2, 0], 2), lines("end 2"));
        assert_eq!(report_up_to(&[1, 0, 2, 0, 9], 3), lines("bad 2"));
        for byte in [1, 2, 9] {
            let longer = [1, 0, 2, 0, byte];
            assert_eq!(report_up_to(&longer, 2), Err(Refusal::TapeTooLong));
        }
    }
}
