//! One call of a receiver (01, 'How the receiver moves', last paragraph).
//!
//! A record is kept as the wire bytes that lead to it: FD, the stuffed content so far, and a
//! pending FF; nothing outside a frame. A call searches these and its piece for the first event
//! behind them. A put record may have an address in its content that its station would not take;
//! that is passed over, as it lies before the piece.

use crate::frame::{self, MOST_CONTENT, PENDING, START};
use crate::refusal::Refusal;
use crate::search::{self, Event};
use crate::station::Station;

#[derive(Clone, Copy)]
pub enum Phase {
    Outside,
    Inside,
    AfterFf,
}

pub struct Receiver {
    station: Station,
    heard: Vec<u8>,
    /// Whether the record is one that 01 allows (refusal 4). A refused call leaves it as it is.
    sound: bool,
}

/// What a call gives back: an event or none, and the count of bytes taken.
pub type Taken = (Option<Event>, usize);

impl Receiver {
    pub fn fresh(station: Station) -> Receiver {
        Receiver::put(station, Phase::Outside, &[])
    }

    /// A receiver in any record, also one not allowed.
    pub fn put(station: Station, phase: Phase, content: &[u8]) -> Receiver {
        let inside = [&[START], frame::stuffed(content).as_slice()].concat();
        let heard = match phase {
            Phase::Outside => Vec::new(),
            Phase::Inside => inside,
            Phase::AfterFf => [inside.as_slice(), &[PENDING]].concat(),
        };
        let sound = content.len() <= MOST_CONTENT && station.may_be();
        Receiver {
            station,
            heard,
            sound,
        }
    }

    pub fn call(&mut self, piece: &[u8]) -> Result<Taken, Refusal> {
        if !self.sound {
            return Err(Refusal::BadState);
        }
        let known = self.heard.len();
        let stream = [self.heard.as_slice(), piece].concat();
        if let Some(found) = search::events(self.station, &stream, known).next() {
            self.heard.clear();
            return Ok((Some(found.event), found.place + 1 - known));
        }
        let last_start = stream.iter().rposition(|&byte| byte == START);
        self.heard = last_start.map_or(Vec::new(), |place| stream[place..].to_vec());
        Ok((None, piece.len()))
    }
}

#[cfg(test)]
mod tests {
    use super::*;

    #[test]
    fn a_frame_in_pieces() {
        let mut receiver = Receiver::fresh(Station::Point);
        assert_eq!(receiver.call(&[0xFD, 0, 0, 0x47, 0x0F]), Ok((None, 5)));
        let frame = Some(Event::Frame(vec![0, 0]));
        assert_eq!(receiver.call(&[0xFE, 0xFD]), Ok((frame, 1)));
        assert_eq!(receiver.call(&[0xFE]), Ok((None, 1)));
    }

    #[test]
    fn a_put_address_is_not_asked_again() {
        let mut receiver = Receiver::put(Station::Addressed(5), Phase::Inside, &[6; 3]);
        let frame = Some(Event::Frame(vec![6; 3]));
        assert_eq!(receiver.call(&[18, 0xFE]), Ok((frame, 2)));
    }

    #[test]
    fn a_pending_ff_waits_whatever_the_count() {
        let mut receiver = Receiver::put(Station::Addressed(5), Phase::AfterFf, &[]);
        assert_eq!(receiver.call(&[0, 9]), Ok((None, 2)));
        assert_eq!(receiver.call(&[0xFE]), Ok((Some(Event::Short), 1)));
    }
}
