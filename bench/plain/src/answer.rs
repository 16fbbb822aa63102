//! What the book answers.

/// What is short in an hour: the bid's direction, or a profile that holds it, by number.
#[derive(Clone, Copy, PartialEq, Eq, Debug)]
pub enum CapacityOf {
    Direction,
    Profile(u8),
}

/// Granted with its detail, or the refusal by its trade word, in the order in which they are asked.
#[derive(Clone, Copy, PartialEq, Eq, Debug)]
pub enum Answer {
    Granted(u32),
    Date,
    Field,
    SetupShut,
    Clock,
    Unknown,
    Taken,
    TooEarly,
    TooLate,
    Hours,
    Access,
    Owner,
    Cycle,
    Full,
    Short(u8, CapacityOf),
}

impl Answer {
    /// The number of the answer, 0 for granted, and its two details.
    pub fn numbers(self) -> (u8, u32, u32) {
        match self {
            Answer::Granted(detail) => (0, detail, 0),
            Answer::Date => (17, 0, 0),
            Answer::Field => (3, 0, 0),
            Answer::SetupShut => (4, 0, 0),
            Answer::Clock => (5, 0, 0),
            Answer::Unknown => (6, 0, 0),
            Answer::Taken => (7, 0, 0),
            Answer::TooEarly => (16, 0, 0),
            Answer::TooLate => (8, 0, 0),
            Answer::Hours => (9, 0, 0),
            Answer::Access => (10, 0, 0),
            Answer::Owner => (11, 0, 0),
            Answer::Cycle => (12, 0, 0),
            Answer::Full => (13, 0, 0),
            Answer::Short(hour, CapacityOf::Direction) => (15, hour.into(), 0),
            Answer::Short(hour, CapacityOf::Profile(p)) => (15, hour.into(), 1 + u32::from(p)),
        }
    }
}
