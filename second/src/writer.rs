//! The frame writers (01, 'Layout of a frame'; the order of refusals is 2, 3, 1).

use crate::frame::{self, Line, MOST_CONTENT, MOST_DATA};
use crate::refusal::Refusal;
use crate::station;

/// Writes a point frame to the front of `out`, and returns the image's length.
pub fn point(out: &mut [u8], identifier: u8, command: u8, data: &[u8]) -> Result<usize, Refusal> {
    fits(data)?;
    let fields = [&[identifier, command], data].concat();
    put(out, &Line::Point.image(&fields))
}

/// Writes an addressed frame; `head` is address, identifier, command.
pub fn addressed(out: &mut [u8], head: [u8; 3], data: &[u8]) -> Result<usize, Refusal> {
    fits(data)?;
    if !station::is_address(head[0]) {
        return Err(Refusal::BadAddress);
    }
    put(out, &Line::Addressed.image(&[&head, data].concat()))
}

/// The image length of a content, check included.
pub fn asked_length(content: &[u8]) -> Result<usize, Refusal> {
    if content.len() > MOST_CONTENT {
        return Err(Refusal::TooLong);
    }
    Ok(frame::image(content).len())
}

fn fits(data: &[u8]) -> Result<(), Refusal> {
    if data.len() > MOST_DATA {
        return Err(Refusal::TooLong);
    }
    Ok(())
}

fn put(out: &mut [u8], image: &[u8]) -> Result<usize, Refusal> {
    let front = out.get_mut(..image.len()).ok_or(Refusal::NoRoom)?;
    front.copy_from_slice(image);
    Ok(image.len())
}
