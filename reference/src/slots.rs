//! The slots: sixty-four places for messages on the air.

use crate::entry::Entry;

pub const SLOTS: u32 = 64;

#[derive(Clone, Copy, Debug)]
pub struct Message {
    pub client: u8,
    pub cabinet: u8,
    pub operation_number: u32,
    pub body: Body,
}

/// The body tells the part: asks and what is held belong to the first, offers
/// and acknowledgements to the second.
#[derive(Clone, Copy, Debug)]
pub enum Body {
    Ask,
    Offer(Entry),
    Held(Entry),
    Acknowledged,
}

pub struct Slots {
    /// One bit for each slot that holds a message.
    full: u64,
    messages: [Message; SLOTS as usize],
}

impl Slots {
    pub fn empty() -> Slots {
        let nothing = Message {
            client: 0,
            cabinet: 0,
            operation_number: 0,
            body: Body::Ask,
        };
        Slots {
            full: 0,
            messages: [nothing; SLOTS as usize],
        }
    }

    pub fn lowest_free(&self) -> Option<usize> {
        let at = self.full.trailing_ones();
        (at < SLOTS).then_some(at as usize)
    }

    pub fn fill(&mut self, slot: usize, message: Message) {
        self.full |= 1 << slot;
        self.messages[slot] = message;
    }

    /// The reply takes the request's slot, with all else as it was.
    pub fn answer(&mut self, slot: usize, body: Body) {
        self.messages[slot].body = body;
    }

    pub fn empty_one(&mut self, slot: usize) {
        self.full &= !(1 << slot);
    }

    pub fn message(&self, slot: usize) -> Option<&Message> {
        (self.full >> slot & 1 == 1).then(|| &self.messages[slot])
    }
}
