//! The refusal numbers (01, 'Refusal numbers'; 02).

#[derive(Clone, Copy, Debug, PartialEq, Eq)]
pub enum Refusal {
    NoRoom = 1,
    TooLong = 2,
    BadAddress = 3,
    BadState = 4,
    BadRequest = 5,
    WrongId = 6,
    WrongCommand = 7,
    WrongLength = 8,
    WrongReason = 9,
    TapeTooLong = 10,
}

impl Refusal {
    /// What a program that refuses its input prints in place of all else.
    pub fn line(self) -> String {
        format!("refused {} {self:?}\n", self as u8)
    }
}

/// The number of a call's outcome; 0 is no refusal.
pub fn number<T>(outcome: &Result<T, Refusal>) -> u8 {
    match outcome {
        Ok(_) => 0,
        Err(refusal) => *refusal as u8,
    }
}

#[cfg(test)]
mod tests {
    use super::*;

    #[test]
    fn a_refusal_by_number_and_name() {
        assert_eq!(Refusal::TapeTooLong.line(), "refused 10 TapeTooLong\n");
    }
}
