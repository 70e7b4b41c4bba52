//! The events of a line's stream, found by searching the stream for images.
//!
//! FD begins a frame from every state, so the stream falls apart into spans, each behind an FD and
//! up to the next. A span has one event at most: after it nothing is heard until the next FD.

use crate::frame::{self, LEAST_CONTENT, MOST_CONTENT, MOST_PARTNER, PENDING, START, STOP};
use crate::station::Station;

#[derive(Clone, Debug, PartialEq, Eq)]
pub enum Event {
    /// With the content before its check.
    Frame(Vec<u8>),
    /// With the content before its check.
    Check(Vec<u8>),
    Short,
    Long,
    Pair,
    Addr,
}

impl Event {
    pub fn name(&self) -> &'static str {
        match self {
            Event::Frame(_) => "FRAME",
            Event::Check(_) => "CHECK",
            Event::Short => "SHORT",
            Event::Long => "LONG",
            Event::Pair => "PAIR",
            Event::Addr => "ADDR",
        }
    }

    /// The content it carries, without check.
    pub fn fields(&self) -> &[u8] {
        match self {
            Event::Frame(fields) | Event::Check(fields) => fields,
            _ => &[],
        }
    }
}

/// An event, and the place of its byte in the stream.
#[derive(Debug, PartialEq, Eq)]
pub struct Found {
    pub place: usize,
    pub event: Event,
}

/// The events of a stream, in order, but those at places before `from`.
pub fn events(
    station: Station,
    stream: &[u8],
    from: usize,
) -> impl Iterator<Item = Found> + use<'_> {
    spans(stream).filter_map(move |span| span.event(station, from))
}

struct Span<'a> {
    /// The place behind the span's FD.
    place: usize,
    wire: &'a [u8],
}

fn spans(stream: &[u8]) -> impl Iterator<Item = Span<'_>> {
    let mut place = 0;
    let parts = stream.split(|&byte| byte == START).map(move |wire| {
        let span = Span { place, wire };
        place += wire.len() + 1;
        span
    });
    parts.skip(1)
}

impl Span<'_> {
    /// The first event wins; at one place the order below does: a wrong partner, FE included, is
    /// neither stop nor content, and the stop is no content.
    fn event(&self, station: Station, from: usize) -> Option<Found> {
        let candidates = [
            (self.address_refused(station), Some(Event::Addr)),
            (self.bad_pair(), Some(Event::Pair)),
            (self.stop(), None),
            (self.surplus(), Some(Event::Long)),
        ];
        let first = candidates
            .into_iter()
            .filter_map(|(place, event)| Some((place?, event)))
            .filter(|(place, _)| self.place + place >= from)
            .min_by_key(|(place, _)| *place);
        first.map(|(place, event)| Found {
            place: self.place + place,
            event: event.unwrap_or_else(|| stopped(station, &self.wire[..place])),
        })
    }

    fn address_refused(&self, station: Station) -> Option<usize> {
        let first = *self.wire.first()?;
        (first != STOP && !station.takes(first)).then_some(0)
    }

    /// A partner is never FF in a good pair, so the first FF with a wrong byte behind it is it.
    fn bad_pair(&self) -> Option<usize> {
        let is_bad = |pair: &[u8]| pair[0] == PENDING && pair[1] > MOST_PARTNER;
        self.wire.windows(2).position(is_bad).map(|place| place + 1)
    }

    fn stop(&self) -> Option<usize> {
        self.wire.iter().position(|&byte| byte == STOP)
    }

    /// The last wire byte of the 65th content byte: each byte but FF completes one.
    fn surplus(&self) -> Option<usize> {
        let mut last_bytes = (0..self.wire.len()).filter(|&place| self.wire[place] != PENDING);
        last_bytes.nth(MOST_CONTENT)
    }
}

/// The event at a stop, from the wire between FD and FE. It is a frame if it is what the frame
/// with these fields looks like on the wire.
fn stopped(station: Station, wire: &[u8]) -> Event {
    let mut fields = frame::unstuffed(wire);
    if fields.len() < LEAST_CONTENT {
        return Event::Short;
    }
    fields.truncate(fields.len() - station.line().check_length());
    let heard = [&[START], wire, &[STOP]].concat();
    if station.line().image(&fields) == heard {
        Event::Frame(fields)
    } else {
        Event::Check(fields)
    }
}

#[cfg(test)]
mod tests {
    use super::*;
    use crate::frame::Line;
    use crate::station::MASTER;

    fn only(station: Station, stream: &[u8]) -> Found {
        let mut found: Vec<Found> = events(station, stream, 0).collect();
        assert_eq!(found.len(), 1);
        found.remove(0)
    }

    #[test]
    fn p7_to_p11() {
        let at = |place, event| Found { place, event };
        let point = |stream: &[u8]| only(Station::Point, stream);
        assert_eq!(point(&[0xFD, 0, 0, 0xFE]), at(3, Event::Short));
        assert_eq!(point(&[0xFD, 0xFF, 0xFE]), at(2, Event::Pair));
        assert_eq!(
            only(Station::Addressed(MASTER), &[0xFD, 5]),
            at(1, Event::Addr)
        );
        let twice_begun = [0xFD, 0xFD, 0, 0, 0x47, 0x0F, 0xFE];
        assert_eq!(point(&twice_begun), at(6, Event::Frame(vec![0, 0])));
        let wrong = [0xFD, 0, 0, 0x47, 0x0E, 0xFE];
        assert_eq!(point(&wrong), at(5, Event::Check(vec![0, 0])));
    }

    #[test]
    fn the_most_content_passes_and_a_byte_more_is_long() {
        let longest = Line::Point.image(&[0; 62]);
        assert_eq!(
            only(Station::Point, &longest).event,
            Event::Frame(vec![0; 62])
        );
        let longer = [&[START], &[0; 65][..], &[STOP]].concat();
        assert_eq!(
            only(Station::Point, &longer),
            Found {
                place: 65,
                event: Event::Long
            }
        );
    }
}
