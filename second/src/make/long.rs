//! Long tapes, to measure a program by. But for `year` they hold as many records as they are
//! asked for or a few more, and the last one is whole.

use std::io::{self, Write};

use super::prng::Prng;
use super::wire;
use crate::frame::{Line, LEAST_CONTENT, MOST_CONTENT};
use crate::station::MASTER;
use crate::tape::{ADDRESSED_BYTE, POINT_BYTE, RECORD};

const LINES: [(u8, Line); 2] = [(POINT_BYTE, Line::Point), (ADDRESSED_BYTE, Line::Addressed)];

/// Stretch by stretch of either line.
pub fn day(seed: u64, records: usize) -> Vec<u8> {
    grown(seed, records, |prng| {
        let (kind, line) = prng.pick(&LINES);
        (kind, wire::stretch(prng, line, MASTER))
    })
}

/// The stretches of a day, but the lines take turns byte by byte.
pub fn turns(seed: u64, records: usize) -> Vec<u8> {
    let mut prng = Prng::new(seed);
    let [point, addressed] = [Line::Point, Line::Addressed]
        .map(|line| wire::stream(&mut prng, line, MASTER, records.div_ceil(2)));
    let pairs = point.into_iter().zip(addressed);
    pairs
        .flat_map(|(point, addressed)| [POINT_BYTE, point, ADDRESSED_BYTE, addressed])
        .collect()
}

/// Point frames of the least content, back to back.
pub fn shortest(seed: u64, records: usize) -> Vec<u8> {
    point_frames(seed, records, LEAST_CONTENT)
}

/// Point frames of the most content, back to back.
pub fn longest(seed: u64, records: usize) -> Vec<u8> {
    point_frames(seed, records, MOST_CONTENT)
}

fn point_frames(seed: u64, records: usize, content: usize) -> Vec<u8> {
    let length = content - Line::Point.check_length();
    grown(seed, records, |prng| {
        let fields: Vec<u8> = (0..length).map(|_| prng.byte()).collect();
        (POINT_BYTE, Line::Point.image(&fields))
    })
}

/// Any bytes on either line.
pub fn noise(seed: u64, records: usize) -> Vec<u8> {
    grown(seed, records, |prng| {
        let (kind, _) = prng.pick(&LINES);
        (kind, vec![prng.byte()])
    })
}

/// A tape that grows by bytes of one kind until it has so many records.
fn grown(seed: u64, records: usize, mut heard: impl FnMut(&mut Prng) -> (u8, Vec<u8>)) -> Vec<u8> {
    let mut prng = Prng::new(seed);
    let mut tape = Vec::new();
    while tape.len() < RECORD * records {
        let (kind, bytes) = heard(&mut prng);
        tape.extend(recorded(kind, &bytes));
    }
    tape
}

fn recorded(kind: u8, bytes: &[u8]) -> impl Iterator<Item = u8> + use<'_> {
    bytes.iter().flat_map(move |&byte| [kind, byte])
}

/// How much of a year is written at once.
const ROUNDS_AT_ONCE: usize = 4096;

/// Writes exactly so many records without keeping them, the last round broken off where need be.
/// A round has 20: the frames P1 and P2 of 01 on the point line, then the addressed frame 00.FD.10,
/// whose FD is stuffed. Over the most records of a tape the point line reserves more than 2^32
/// bytes.
pub fn year(records: usize, out: &mut impl Write) -> io::Result<()> {
    let requested = Line::Point.image(&[0x00, 0x00]);
    let acknowledged = Line::Point.image(&[0x00, 0x2A, 0x55]);
    let addressed = Line::Addressed.image(&[MASTER, 0xFD, 0x10]);
    let round: Vec<u8> = recorded(POINT_BYTE, &requested)
        .chain(recorded(POINT_BYTE, &acknowledged))
        .chain(recorded(ADDRESSED_BYTE, &addressed))
        .collect();
    let block = round.repeat(ROUNDS_AT_ONCE);
    let mut left = records;
    while left > 0 {
        let count = left.min(block.len() / RECORD);
        out.write_all(&block[..count * RECORD])?;
        left -= count;
    }
    out.flush()
}

#[cfg(test)]
mod tests {
    use super::*;
    use crate::{report, tape};

    const HEAD: &str = "line frames heard inside reserved difference";

    #[test]
    fn long_tapes_are_whole_and_the_same_for_a_seed() {
        for make in [day, turns, shortest, longest, noise] {
            let tape = make(1, 1001);
            assert!(tape.len() >= 2002);
            let last_line = format!("\nend {}\n", tape.len() / 2);
            assert!(tape::listing(&tape).ends_with(&last_line));
            assert!(tape == make(1, 1001) && tape != make(2, 1001));
        }
    }

    #[test]
    fn the_lines_take_turns() {
        let tape = turns(1, 1001);
        let mut kinds = tape.chunks(4).map(|pair| [pair[0], pair[2]]);
        assert!(kinds.all(|pair| pair == [POINT_BYTE, ADDRESSED_BYTE]));
    }

    #[test]
    fn shortest_and_longest_are_frames_alone() {
        for (make, content) in [(shortest as fn(_, _) -> _, 4), (longest, 64)] {
            let tape = make(1, 1000);
            let text = report::report(&tape).unwrap();
            let (frames, heard) = (tape::listing(&tape).lines().count() - 2, tape.len() / 2);
            let reserved = frames * (2 + 2 * content);
            let point = format!("P {frames} {heard} {heard} {reserved} {}", reserved - heard);
            assert_eq!(text, format!("{HEAD}\n{point}\nA 0 0 0 0 0\nend {heard}\n"));
        }
    }

    #[test]
    fn a_year_has_exactly_its_records() {
        let written = |records| {
            let mut tape = Vec::new();
            year(records, &mut tape).unwrap();
            tape
        };
        assert_eq!(written(0), []);
        assert_eq!(written(2), [1, 0xFD, 1, 0x00]);
        // Two blocks and one round more, and the next round up to the address of its last frame.
        let rounds = 2 * ROUNDS_AT_ONCE + 1;
        let records = 20 * rounds + 15;
        let begun = rounds + 1;
        let point = [2 * begun, 13 * begun, 13 * begun, 22 * begun, 9 * begun];
        let heard = 7 * rounds + 2;
        let addressed = [rounds, heard, 7 * rounds, 10 * rounds, 10 * rounds - heard];
        let [point, addressed] =
            [point, addressed].map(|line| line.map(|total| total.to_string()).join(" "));
        let text = format!("{HEAD}\nP {point}\nA {addressed}\nend {records}\n");
        assert_eq!(report::report(&written(records)), Ok(text));
    }
}
