//! Stamps, readings and entries: what the register holds.

/// Compared by counter, then by writer, which is the order of the fields.
#[derive(Clone, Copy, Debug, PartialEq, Eq, PartialOrd, Ord)]
pub struct Stamp {
    /// At most one more for each accepted step, so never above a million.
    pub counter: u32,
    pub writer: u8,
}

#[derive(Clone, Copy, Debug, PartialEq, Eq)]
pub enum Reading {
    Unknown,
    /// Open for so many minutes.
    Open(u8),
    Closed,
}

pub const MOST_MINUTES: u32 = 240;

#[derive(Clone, Copy, Debug, PartialEq, Eq)]
pub struct Entry {
    pub stamp: Stamp,
    pub reading: Reading,
}

impl Entry {
    pub const FACTORY: Entry = Entry {
        stamp: Stamp {
            counter: 0,
            writer: 0,
        },
        reading: Reading::Unknown,
    };
}

#[cfg(test)]
mod tests {
    use super::*;

    #[test]
    fn stamps_go_by_counter_then_writer() {
        let stamp = |counter, writer| Stamp { counter, writer };
        assert!(stamp(1, 1) < stamp(1, 2));
        assert!(stamp(1, 2) < stamp(2, 1));
    }
}
