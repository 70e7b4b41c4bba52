//! The commands of the point reader, with the data they accept (01, 'The point reader').

use std::ops::RangeInclusive;

pub const HEADER_LENGTH: usize = 40;
/// The antenna's answer is at most this long.
pub const MOST_ANTENNA: usize = 8;
/// Stands in place of the command in ACK and NACK frames.
pub const ACKNOWLEDGEMENT: u8 = 0x2A;
pub const ACK: u8 = 0x55;

/// The interface speeds (003, parameter 02).
pub fn is_speed(byte: u8) -> bool {
    (3..=10).contains(&byte)
}

/// The speeds above 115200: not every reader takes them, and none keeps them (003; 02, L2).
pub fn is_fast_speed(byte: u8) -> bool {
    (8..=10).contains(&byte)
}

#[derive(Clone, Copy, Debug, PartialEq, Eq)]
pub enum Parameter {
    Speed,
    P05,
    P80,
}

impl Parameter {
    fn of(code: u8) -> Option<Parameter> {
        match code {
            0x02 => Some(Parameter::Speed),
            0x05 => Some(Parameter::P05),
            0x80 => Some(Parameter::P80),
            _ => None,
        }
    }

    fn length(self) -> usize {
        match self {
            Parameter::Speed => 1,
            Parameter::P05 => 4,
            Parameter::P80 => 8,
        }
    }

    fn accepts(self, value: &[u8]) -> bool {
        value.len() == self.length() && (self != Parameter::Speed || is_speed(value[0]))
    }
}

/// A request that can be executed.
#[derive(Clone, Debug)]
pub enum Command {
    Header,
    Write(Parameter, Vec<u8>),
    Read(Parameter),
    /// Reads a card whose code has one of these lengths.
    Card(RangeInclusive<usize>),
}

/// Why a request cannot be executed: its code (step 4) or its data (step 5).
#[derive(Debug)]
pub enum Unfit {
    Code,
    Data,
}

impl Command {
    pub fn of(code: u8, data: &[u8]) -> Result<Command, Unfit> {
        match code {
            0x00 => Command::Header.without(data),
            0x01 => Command::write(data).ok_or(Unfit::Data),
            0x02 => Command::read(data).ok_or(Unfit::Data),
            0x10 | 0x14 => Command::Card(1..=MOST_ANTENNA).without(data),
            0x18 => Command::Card(5..=5).without(data),
            _ => Err(Unfit::Code),
        }
    }

    fn without(self, data: &[u8]) -> Result<Command, Unfit> {
        if data.is_empty() {
            Ok(self)
        } else {
            Err(Unfit::Data)
        }
    }

    fn write(data: &[u8]) -> Option<Command> {
        let (&code, value) = data.split_first()?;
        let parameter = Parameter::of(code).filter(|parameter| parameter.accepts(value))?;
        Some(Command::Write(parameter, value.to_vec()))
    }

    fn read(data: &[u8]) -> Option<Command> {
        match data {
            [code] => Parameter::of(*code).map(Command::Read),
            _ => None,
        }
    }

    /// The lengths of data that answer it; none where ACK does.
    pub fn reply_lengths(&self) -> Option<RangeInclusive<usize>> {
        match self {
            Command::Header => Some(HEADER_LENGTH..=HEADER_LENGTH),
            Command::Write(..) => None,
            Command::Read(parameter) => Some(parameter.length()..=parameter.length()),
            Command::Card(lengths) => Some(lengths.clone()),
        }
    }
}
