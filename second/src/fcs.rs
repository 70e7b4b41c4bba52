//! The FCS of the point line, from its bits (01, 'Layout of a frame', FCS).

const INITIAL: u16 = 0xFFFF;
const POLYNOMIAL: u16 = 0x8408;

/// One byte through its eight shift steps, low bit first.
fn shifted(field: u16, byte: u8) -> u16 {
    (0..8).fold(field ^ u16::from(byte), |field, _| {
        let carry = if field & 1 == 1 { POLYNOMIAL } else { 0 };
        (field >> 1) ^ carry
    })
}

/// The field over the bytes, not inverted.
pub fn field(bytes: &[u8]) -> u16 {
    bytes
        .iter()
        .fold(INITIAL, |field, &byte| shifted(field, byte))
}

/// The FCS of the bytes.
pub fn fcs(bytes: &[u8]) -> u16 {
    !field(bytes)
}

#[cfg(test)]
mod tests {
    use super::*;

    #[test]
    fn published_x25_vectors() {
        assert_eq!(fcs(b"123456789"), 0x906E);
        assert_eq!(fcs(&[0x03, 0x3F]).to_le_bytes(), [0x5B, 0xEC]);
        assert_eq!(fcs(&[0x01, 0x73]).to_le_bytes(), [0x83, 0x57]);
    }

    #[test]
    fn content_with_its_fcs_leaves_the_residue() {
        assert_eq!(field(&[0x00, 0x2A, 0x55, 0xA7, 0x1D]), 0xF0B8);
    }
}
