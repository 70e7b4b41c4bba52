//! Who hears a line, and which addresses it takes (01, 'Addresses').

use crate::frame::{Line, START};
use crate::refusal::Refusal;

pub const MASTER: u8 = 0x00;
/// Reaches every reader.
pub const EVERY_READER: u8 = 0x7F;

#[derive(Clone, Copy, Debug)]
pub enum Station {
    Point,
    /// Of this own address.
    Addressed(u8),
}

/// FD, FE and FF are never addresses.
pub fn is_address(byte: u8) -> bool {
    byte < START
}

impl Station {
    /// A new station of the addressed line.
    pub fn new(address: u8) -> Result<Station, Refusal> {
        let station = Station::Addressed(address);
        if station.may_be() {
            Ok(station)
        } else {
            Err(Refusal::BadAddress)
        }
    }

    /// Whether a station may have its address.
    pub fn may_be(self) -> bool {
        match self {
            Station::Point => true,
            Station::Addressed(own) => is_address(own) && own != EVERY_READER,
        }
    }

    pub fn line(self) -> Line {
        match self {
            Station::Point => Line::Point,
            Station::Addressed(_) => Line::Addressed,
        }
    }

    /// Whether a frame that begins with this byte is for the station.
    pub fn takes(self, first: u8) -> bool {
        match self {
            Station::Point => true,
            Station::Addressed(MASTER) => first == MASTER,
            Station::Addressed(own) => first == own || first == EVERY_READER,
        }
    }
}
