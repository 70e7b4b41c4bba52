//! The point reader (01, 'The point reader'), slow or fast (02, L2).

use crate::command::{
    is_fast_speed, is_speed, Command, Parameter, Unfit, ACK, ACKNOWLEDGEMENT, HEADER_LENGTH,
    MOST_ANTENNA,
};
use crate::frame::Line;
use crate::refusal::Refusal;
use crate::search::Event;

/// The least room of store and out buffer, and the greatest length remembered.
const ROOM: usize = 130;
/// A frame's content without check, in bytes.
const FIELDS: std::ops::RangeInclusive<usize> = 2..=62;
/// The speed of a fresh reader, 9600, to which a power-on returns from a fast one.
const FIRST_SPEED: u8 = 3;

/// The last executed command, and the length of its stored reply.
#[derive(Clone, Copy, Debug, PartialEq, Eq)]
pub struct Last {
    pub identifier: u8,
    pub command: u8,
    pub length: usize,
}

#[derive(Clone, Debug, PartialEq, Eq)]
pub struct Reader {
    pub speed: u8,
    pub parameter_05: [u8; 4],
    pub parameter_80: [u8; 8],
    pub last: Option<Last>,
    /// Whether its model takes the fast speeds; set when it is made.
    pub fast: bool,
}

/// What the reader finds in its device at a call.
pub struct Device<'a> {
    pub header: &'a [u8; HEADER_LENGTH],
    /// The card's bytes, none for no card.
    pub antenna: &'a [u8],
}

/// The two buffers lent for a call.
pub struct Lent<'a> {
    pub store: &'a mut [u8],
    pub out: &'a mut [u8],
}

/// The bytes to send: the front part of one of the two buffers.
#[derive(Clone, Copy, Debug, PartialEq, Eq)]
pub enum Part {
    Out(usize),
    Store(usize),
}

impl Reader {
    pub fn fresh(fast: bool) -> Reader {
        Reader {
            speed: FIRST_SPEED,
            parameter_05: [0; 4],
            parameter_80: [0; 8],
            last: None,
            fast,
        }
    }

    pub fn power_on(&mut self) -> Result<(), Refusal> {
        self.sound()?;
        if is_fast_speed(self.speed) {
            self.speed = FIRST_SPEED;
        }
        self.last = None;
        Ok(())
    }

    /// One call. The order of refusals is 4, 1, 2, 5.
    pub fn call(
        &mut self,
        event: Option<&Event>,
        device: &Device,
        lent: &mut Lent,
    ) -> Result<Part, Refusal> {
        self.sound()?;
        if lent.store.len().min(lent.out.len()) < ROOM {
            return Err(Refusal::NoRoom);
        }
        if device.antenna.len() > MOST_ANTENNA {
            return Err(Refusal::TooLong);
        }
        match event {
            Some(Event::Frame(fields) | Event::Check(fields))
                if !FIELDS.contains(&fields.len()) =>
            {
                Err(Refusal::BadRequest)
            }
            Some(Event::Check(fields)) => Ok(send(lent, &nack(fields[0], 1))),
            Some(Event::Frame(fields)) => Ok(self.answer(fields, device, lent)),
            _ => Ok(Part::Out(0)),
        }
    }

    fn sound(&self) -> Result<(), Refusal> {
        let remembered = self.last.map_or(0, |last| last.length);
        if self.takes(self.speed) && remembered <= ROOM {
            Ok(())
        } else {
            Err(Refusal::BadState)
        }
    }

    /// Whether its model takes this speed.
    fn takes(&self, speed: u8) -> bool {
        is_speed(speed) && (self.fast || !is_fast_speed(speed))
    }

    /// Steps 3 to 6.
    fn answer(&mut self, fields: &[u8], device: &Device, lent: &mut Lent) -> Part {
        let (identifier, command, data) = (fields[0], fields[1], &fields[2..]);
        let repeats = |last: &Last| (last.identifier, last.command) == (identifier, command);
        if let Some(last) = self.last.filter(repeats) {
            return Part::Store(last.length);
        }
        let executable = match self.executable(command, data) {
            Err(Unfit::Code) => return send(lent, &nack(identifier, 2)),
            Err(Unfit::Data) => return send(lent, &nack(identifier, 3)),
            Ok(executable) => executable,
        };
        let reply = match self.execute(executable, device) {
            Done::Ack => vec![identifier, ACKNOWLEDGEMENT, ACK],
            Done::NoCard => nack(identifier, 6),
            Done::Data(data) => [&[identifier, command], data.as_slice()].concat(),
        };
        let part = send(lent, &reply);
        let sent = lent.part(part).to_vec();
        lent.store[..sent.len()].copy_from_slice(&sent);
        self.last = Some(Last {
            identifier,
            command,
            length: sent.len(),
        });
        part
    }

    /// Steps 4 and 5; the latter also refuses a speed that this model does not take.
    fn executable(&self, code: u8, data: &[u8]) -> Result<Command, Unfit> {
        match Command::of(code, data)? {
            Command::Write(Parameter::Speed, value) if !self.takes(value[0]) => Err(Unfit::Data),
            command => Ok(command),
        }
    }

    fn execute(&mut self, command: Command, device: &Device) -> Done {
        match command {
            Command::Header => Done::Data(device.header.to_vec()),
            Command::Write(parameter, value) => {
                self.value_mut(parameter).copy_from_slice(&value);
                Done::Ack
            }
            Command::Read(parameter) => Done::Data(self.value_mut(parameter).to_vec()),
            Command::Card(lengths) if lengths.contains(&device.antenna.len()) => {
                Done::Data(device.antenna.to_vec())
            }
            Command::Card(_) => Done::NoCard,
        }
    }

    fn value_mut(&mut self, parameter: Parameter) -> &mut [u8] {
        match parameter {
            Parameter::Speed => std::slice::from_mut(&mut self.speed),
            Parameter::P05 => &mut self.parameter_05,
            Parameter::P80 => &mut self.parameter_80,
        }
    }
}

/// How an executed command ends.
enum Done {
    Ack,
    NoCard,
    Data(Vec<u8>),
}

fn nack(identifier: u8, number: u8) -> Vec<u8> {
    vec![identifier, ACKNOWLEDGEMENT, number]
}

/// Writes the frame to out. Header or card bytes make the longest, under 130 even all stuffed.
fn send(lent: &mut Lent, fields: &[u8]) -> Part {
    let image = Line::Point.image(fields);
    lent.out[..image.len()].copy_from_slice(&image);
    Part::Out(image.len())
}

impl Lent<'_> {
    /// The bytes of a part, none where its length is beyond the buffer.
    pub fn part(&self, part: Part) -> &[u8] {
        let front = match part {
            Part::Out(length) => self.out.get(..length),
            Part::Store(length) => self.store.get(..length),
        };
        front.unwrap_or(&[])
    }
}

#[cfg(test)]
mod tests {
    use super::*;

    const FILL: u8 = 0xEE;

    /// A reader, its store and its out buffer.
    #[derive(Clone, Debug, PartialEq, Eq)]
    struct Set {
        reader: Reader,
        store: [u8; ROOM],
        out: [u8; ROOM],
    }

    impl Set {
        /// A reader that has executed 07.10.
        fn of(fast: bool, speed: u8) -> Set {
            let last = Last {
                identifier: 0x07,
                command: 0x10,
                length: 7,
            };
            let reader = Reader {
                speed,
                parameter_05: [5; 4],
                parameter_80: [8; 8],
                last: Some(last),
                fast,
            };
            Set {
                reader,
                store: [FILL; ROOM],
                out: [FILL; ROOM],
            }
        }

        fn call(&mut self, fields: &[u8]) -> Result<Part, Refusal> {
            let device = Device {
                header: &[0; HEADER_LENGTH],
                antenna: &[],
            };
            let mut lent = Lent {
                store: &mut self.store,
                out: &mut self.out,
            };
            let event = Event::Frame(fields.to_vec());
            self.reader.call(Some(&event), &device, &mut lent)
        }

        /// What is sent for a write of this speed, with identifier 01.
        fn write(&mut self, speed: u8) -> Vec<u8> {
            let Ok(Part::Out(length)) = self.call(&[0x01, 0x01, 0x02, speed]) else {
                panic!("not from out");
            };
            self.out[..length].to_vec()
        }
    }

    fn acknowledged(reason: u8) -> Vec<u8> {
        Line::Point.image(&[0x01, ACKNOWLEDGEMENT, reason])
    }

    #[test]
    fn a_power_on_keeps_all_but_a_fast_speed_and_the_last_command() {
        for (fast, speed, kept) in [
            (false, 3, 3),
            (false, 7, 7),
            (true, 3, 3),
            (true, 7, 7),
            (true, 8, 3),
            (true, 9, 3),
            (true, 10, 3),
        ] {
            let before = Set::of(fast, speed).reader;
            let mut reader = before.clone();
            assert_eq!(reader.power_on(), Ok(()));
            let after = Reader {
                speed: kept,
                last: None,
                ..before
            };
            assert_eq!(reader, after);
        }
    }

    #[test]
    fn a_fast_speed_in_a_slow_record_is_bad_state() {
        for (fast, speed) in [
            (false, 2),
            (false, 8),
            (false, 9),
            (false, 10),
            (false, 11),
            (true, 2),
            (true, 11),
        ] {
            let before = Set::of(fast, speed);
            let mut set = before.clone();
            assert_eq!(set.call(&[0x07, 0x10]), Err(Refusal::BadState));
            assert_eq!(set.reader.power_on(), Err(Refusal::BadState));
            assert_eq!(set, before);
        }
    }

    #[test]
    fn a_slow_reader_answers_nack_3_to_a_fast_speed_and_remembers_nothing() {
        for speed in 8..=10 {
            let before = Set::of(false, 7);
            let mut set = before.clone();
            assert_eq!(set.write(speed), acknowledged(3));
            assert_eq!((&set.reader, set.store), (&before.reader, before.store));
            assert_eq!(set.call(&[0x07, 0x10]), Ok(Part::Store(7)));
            assert_eq!(set.write(6), acknowledged(ACK));
            assert_eq!(set.reader.speed, 6);
        }
    }

    #[test]
    fn every_other_speed_is_written_by_slow_and_by_fast_readers() {
        for (fast, most) in [(false, 7), (true, 10)] {
            for speed in 3..=most {
                let mut set = Set::of(fast, 3);
                assert_eq!(set.write(speed), acknowledged(ACK));
                assert_eq!((set.reader.speed, set.reader.fast), (speed, fast));
            }
        }
    }

    #[test]
    fn a_repeat_goes_before_the_nack_3() {
        let mut set = Set::of(false, 3);
        set.write(7);
        let written = set.clone();
        let again = set.call(&[0x01, 0x01, 0x02, 9]);
        assert_eq!(again, Ok(Part::Store(acknowledged(ACK).len())));
        assert_eq!(set, written);
    }

    #[test]
    fn after_a_power_on_the_same_write_is_executed_again() {
        let mut set = Set::of(true, 3);
        for _ in 0..2 {
            assert_eq!(set.write(9), acknowledged(ACK));
            assert_eq!(set.reader.speed, 9);
            assert_eq!(set.reader.power_on(), Ok(()));
            assert_eq!(set.reader.speed, 3);
        }
    }
}
