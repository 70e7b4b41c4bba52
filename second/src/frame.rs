//! Layout, stuffing and wire images (01, 'Layout of a frame').
//!
//! `fields` are all content before the check.

use crate::fcs;

pub const START: u8 = 0xFD;
pub const STOP: u8 = 0xFE;
/// Waits for its partner, inside a frame.
pub const PENDING: u8 = 0xFF;
/// The greatest partner: 00, 01, 02 give FF, FE, FD.
pub const MOST_PARTNER: u8 = PENDING - START;

pub const LEAST_CONTENT: usize = 4;
pub const MOST_CONTENT: usize = 64;
pub const MOST_DATA: usize = 60;

#[derive(Clone, Copy, Debug, PartialEq, Eq)]
pub enum Line {
    Point,
    Addressed,
}

impl Line {
    pub fn check_length(self) -> usize {
        match self {
            Line::Point => 2,
            Line::Addressed => 1,
        }
    }

    /// The fields with their check behind them.
    pub fn content(self, fields: &[u8]) -> Vec<u8> {
        match self {
            Line::Point => [fields, &fcs::fcs(fields).to_le_bytes()].concat(),
            Line::Addressed => [fields, &[sum(fields)]].concat(),
        }
    }

    /// The wire image of the frame with these fields.
    pub fn image(self, fields: &[u8]) -> Vec<u8> {
        image(&self.content(fields))
    }
}

/// The sum of the bytes, modulo 256.
pub fn sum(bytes: &[u8]) -> u8 {
    bytes.iter().fold(0, |sum, &byte| sum.wrapping_add(byte))
}

/// Start, stuffed content, stop.
pub fn image(content: &[u8]) -> Vec<u8> {
    [&[START], stuffed(content).as_slice(), &[STOP]].concat()
}

pub fn stuffed(content: &[u8]) -> Vec<u8> {
    let mut wire = Vec::with_capacity(content.len());
    for &byte in content {
        if byte >= START {
            wire.extend([PENDING, PENDING - byte]);
        } else {
            wire.push(byte);
        }
    }
    wire
}

/// The content of a stretch of wire in which no FF has a wrong partner. Each byte but FF then
/// gives one content byte; an FF at the end gives none yet.
pub fn unstuffed(wire: &[u8]) -> Vec<u8> {
    let before = [0].iter().chain(wire);
    wire.iter()
        .zip(before)
        .filter(|(&byte, _)| byte != PENDING)
        .map(|(&byte, &before)| match before {
            PENDING => PENDING - byte,
            _ => byte,
        })
        .collect()
}

#[cfg(test)]
mod tests {
    use super::*;

    #[test]
    fn images_p1_to_p6() {
        let point = |fields: &[u8]| Line::Point.image(fields);
        let addressed = |fields: &[u8]| Line::Addressed.image(fields);
        assert_eq!(point(&[0, 0]), [0xFD, 0, 0, 0x47, 0x0F, 0xFE]);
        assert_eq!(
            point(&[0, 0x2A, 0x55]),
            [0xFD, 0, 0x2A, 0x55, 0xA7, 0x1D, 0xFE]
        );
        assert_eq!(point(&[0, 0x2A, 2]), [0xFD, 0, 0x2A, 2, 0x9D, 0x3B, 0xFE]);
        assert_eq!(addressed(&[5, 1, 0x10]), [0xFD, 5, 1, 0x10, 0x16, 0xFE]);
        assert_eq!(
            addressed(&[5, 0xFD, 0x10]),
            [0xFD, 5, 0xFF, 2, 0x10, 0x12, 0xFE]
        );
        assert_eq!(
            addressed(&[1, 0xEC, 0x10]),
            [0xFD, 1, 0xEC, 0x10, 0xFF, 2, 0xFE]
        );
    }

    #[test]
    fn stuffing_p12() {
        let wire = [0xFF, 2, 0xFF, 1, 0xFF, 0];
        assert_eq!(stuffed(&[0xFD, 0xFE, 0xFF]), wire);
        assert_eq!(unstuffed(&wire), [0xFD, 0xFE, 0xFF]);
        assert_eq!(unstuffed(&wire[..5]), [0xFD, 0xFE]);
    }
}
