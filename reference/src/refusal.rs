//! Refusals: why a header, a plan or a step is turned away, with its number.

#[derive(Clone, Copy, Debug, PartialEq, Eq)]
#[repr(u8)]
pub enum Refusal {
    /// A row of another form, an unknown kind, or a number out of range.
    OutOfRange = 2,
    StepsUsedUp = 3,
    ClientLeft = 4,
    ClientBusy = 5,
    ClientIdle = 6,
    SlotsFull = 7,
    SlotEmpty = 8,
    CabinetDown = 9,
    NoOlderVersion = 10,
    TooManyRolledBack = 11,
    TooFewCabinets = 12,
    NoHeader = 13,
}

impl Refusal {
    pub fn number(self) -> u8 {
        self as u8
    }
}
