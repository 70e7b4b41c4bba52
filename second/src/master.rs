//! The master's side of the point line: typed requests, and the reading of replies
//! (01, 'Master's side' and 'Refusal numbers').

use crate::command::{Command, ACK, ACKNOWLEDGEMENT};
use crate::refusal::Refusal;
use crate::writer;

#[derive(Debug, PartialEq, Eq)]
pub enum Reply {
    Ack,
    Nack(u8),
    Data(Vec<u8>),
}

/// A request of the master.
pub struct Request<'a> {
    pub identifier: u8,
    pub code: u8,
    pub data: &'a [u8],
}

impl Request<'_> {
    /// Refuses what every reader, a fast one too, would refuse at step 4 or 5.
    fn command(&self) -> Result<Command, Refusal> {
        Command::of(self.code, self.data).map_err(|_| Refusal::BadRequest)
    }

    pub fn write(&self, out: &mut [u8]) -> Result<usize, Refusal> {
        self.command()?;
        writer::point(out, self.identifier, self.code, self.data)
    }

    /// Reads a reply's content without check. The order of refusals is 5, 6, 7, 8, 9.
    pub fn read(&self, reply: &[u8]) -> Result<Reply, Refusal> {
        let lengths = self.command()?.reply_lengths();
        let rest = match reply.split_first() {
            Some((identifier, rest)) if *identifier == self.identifier => rest,
            _ => return Err(Refusal::WrongId),
        };
        let (&command, data) = rest.split_first().ok_or(Refusal::WrongCommand)?;
        if command == ACKNOWLEDGEMENT {
            return acknowledgement(data, lengths.is_none());
        }
        let lengths = lengths
            .filter(|_| command == self.code)
            .ok_or(Refusal::WrongCommand)?;
        if lengths.contains(&data.len()) {
            Ok(Reply::Data(data.to_vec()))
        } else {
            Err(Refusal::WrongLength)
        }
    }
}

fn acknowledgement(data: &[u8], ack_is_due: bool) -> Result<Reply, Refusal> {
    match data {
        [ACK] if ack_is_due => Ok(Reply::Ack),
        [number @ 1..=6] => Ok(Reply::Nack(*number)),
        [_] => Err(Refusal::WrongReason),
        _ => Err(Refusal::WrongLength),
    }
}

#[cfg(test)]
mod tests {
    use super::*;

    /// 02, L2: the master takes requests for 3..10, whatever its reader takes.
    #[test]
    fn a_write_of_any_speed_may_be_answered_by_ack_or_nack_3() {
        for speed in 0..=u8::MAX {
            let request = Request {
                identifier: 0x01,
                code: 0x01,
                data: &[0x02, speed],
            };
            let good = (3..=10).contains(&speed);
            let due = |reply| {
                if good {
                    Ok(reply)
                } else {
                    Err(Refusal::BadRequest)
                }
            };
            let read = |reason| request.read(&[0x01, ACKNOWLEDGEMENT, reason]);
            assert_eq!(request.write(&mut [0; 10]).is_ok(), good);
            assert_eq!(read(ACK), due(Reply::Ack));
            assert_eq!(read(3), due(Reply::Nack(3)));
        }
    }
}
