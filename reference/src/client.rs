//! A client and its open operation: parts, and the cabinets heard in them.

use crate::entry::{Entry, Reading, Stamp};
use crate::plan::Plan;
use crate::refusal::Refusal;

#[derive(Clone, Copy, Debug, PartialEq, Eq)]
pub enum Kind {
    Write(Reading),
    Read,
}

#[derive(Clone, Copy, Debug, PartialEq, Eq)]
pub enum Part {
    First,
    Second,
}

/// A set of cabinets, one bit for each.
#[derive(Clone, Copy, Debug)]
struct Heard(u16);

impl Heard {
    const NONE: Heard = Heard(0);

    /// Whether the cabinet was new to the set.
    fn add(&mut self, cabinet: u8) -> bool {
        let before = self.0;
        self.0 |= 1 << cabinet;
        self.0 != before
    }

    fn count(self) -> u32 {
        self.0.count_ones()
    }
}

#[derive(Clone, Copy, Debug)]
pub struct Operation {
    kind: Kind,
    pub part: Part,
    heard: Heard,
    /// First part: the entry with the largest stamp heard so far. It starts as
    /// the factory entry, since whatever has the factory's stamp equals it.
    /// Second part: the entry on offer.
    pub entry: Entry,
}

#[derive(Clone, Copy, Debug)]
enum State {
    Idle,
    Open(Operation),
    Left,
}

#[derive(Clone, Copy, Debug)]
pub struct Client {
    /// Of the last operation that was opened.
    pub operation_number: u32,
    state: State,
}

/// What became of a reply.
pub enum Heeded {
    Discarded,
    Counted,
    Chosen(Entry),
    Found(Entry),
    Written(Entry),
    Read(Entry),
}

impl Client {
    pub const FRESH: Client = Client {
        operation_number: 0,
        state: State::Idle,
    };

    pub fn begin(&mut self, kind: Kind) -> Result<(), Refusal> {
        match self.state {
            State::Left => Err(Refusal::ClientLeft),
            State::Open(_) => Err(Refusal::ClientBusy),
            State::Idle => {
                self.operation_number += 1;
                self.state = State::Open(Operation {
                    kind,
                    part: Part::First,
                    heard: Heard::NONE,
                    entry: Entry::FACTORY,
                });
                Ok(())
            }
        }
    }

    pub fn open_operation(&self) -> Result<&Operation, Refusal> {
        match &self.state {
            State::Left => Err(Refusal::ClientLeft),
            State::Idle => Err(Refusal::ClientIdle),
            State::Open(operation) => Ok(operation),
        }
    }

    pub fn leave(&mut self) -> Result<(), Refusal> {
        if let State::Left = self.state {
            return Err(Refusal::ClientLeft);
        }
        self.state = State::Left;
        Ok(())
    }

    /// A cabinet's reply to the request of this operation number and part;
    /// `name` is the client's own number, which goes into the stamps it makes.
    pub fn hear(&mut self, name: u8, reply: Reply, plan: &Plan) -> Heeded {
        let State::Open(operation) = &mut self.state else {
            return Heeded::Discarded;
        };
        if reply.operation_number != self.operation_number
            || reply.part != operation.part
            || !operation.heard.add(reply.cabinet)
        {
            return Heeded::Discarded;
        }
        match operation.part {
            Part::First => operation.hear_held(name, reply.held, plan.read_quorum),
            Part::Second if operation.heard.count() < plan.write_quorum => Heeded::Counted,
            Part::Second => {
                let (kind, entry) = (operation.kind, operation.entry);
                self.state = State::Idle;
                match kind {
                    Kind::Write(_) => Heeded::Written(entry),
                    Kind::Read => Heeded::Read(entry),
                }
            }
        }
    }
}

pub struct Reply {
    pub operation_number: u32,
    pub part: Part,
    pub cabinet: u8,
    /// Of a first part only: what the cabinet held when it answered.
    pub held: Entry,
}

impl Operation {
    fn hear_held(&mut self, name: u8, held: Entry, quorum: u32) -> Heeded {
        if held.stamp > self.entry.stamp {
            self.entry = held;
        }
        if self.heard.count() < quorum {
            return Heeded::Counted;
        }
        self.part = Part::Second;
        self.heard = Heard::NONE;
        match self.kind {
            Kind::Read => Heeded::Found(self.entry),
            Kind::Write(reading) => {
                let counter = self.entry.stamp.counter + 1;
                self.entry = Entry {
                    stamp: Stamp {
                        counter,
                        writer: name,
                    },
                    reading,
                };
                Heeded::Chosen(self.entry)
            }
        }
    }
}
