//! A run: clients, cabinets and slots, changed in place by one step at a time.

use crate::cabinet::{Cabinet, TO_FACTORY};
use crate::client::{Client, Heeded, Kind, Part, Reply};
use crate::entry::{Entry, Reading};
use crate::plan::{Plan, Profile, MOST_CABINETS};
use crate::refusal::Refusal;
use crate::slots::{Body, Message, Slots, SLOTS};

const CLIENTS: u32 = 8;
const MOST_STEPS: u32 = 1_000_000;

/// A step as a row names it: the numbers are not yet known to be in range.
#[derive(Clone, Copy, Debug, PartialEq, Eq)]
pub enum Step {
    Write { client: u32, reading: Reading },
    Read { client: u32 },
    Send { client: u32, cabinet: u32 },
    Deliver { slot: u32 },
    Lose { slot: u32 },
    Stop { cabinet: u32 },
    Restart { cabinet: u32 },
    Rollback { cabinet: u32, back: u32 },
    Leave { client: u32 },
}

/// What an accepted step came to; slots are numbered from 0 here.
#[derive(Clone, Copy, Debug, PartialEq, Eq)]
pub enum Outcome {
    Begun,
    Sent(u8),
    Answered(u8),
    Unanswered(u8),
    Discarded(u8),
    Counted(u8),
    Chosen(u8, Entry),
    Found(u8, Entry),
    Written(u8, Entry),
    Read(u8, Entry),
    Lost(u8),
    Stopped,
    Restarted,
    RolledBack,
    Left,
}

pub type Answer = Result<Outcome, Refusal>;

pub struct Run {
    plan: Plan,
    accepted: u32,
    clients: [Client; CLIENTS as usize],
    cabinets: [Cabinet; MOST_CABINETS as usize],
    slots: Slots,
}

impl Run {
    pub fn fresh(plan: Plan) -> Run {
        Run {
            plan,
            accepted: 0,
            clients: [Client::FRESH; CLIENTS as usize],
            cabinets: std::array::from_fn(|at| Cabinet::fresh(at < plan.stores as usize)),
            slots: Slots::empty(),
        }
    }

    pub fn step(&mut self, step: Step) -> Answer {
        let outcome = match step {
            Step::Write { client, reading } => self.begin(client, Kind::Write(reading)),
            Step::Read { client } => self.begin(client, Kind::Read),
            Step::Send { client, cabinet } => self.send(client, cabinet),
            Step::Deliver { slot } => self.deliver(slot),
            Step::Lose { slot } => self.lose(slot),
            Step::Stop { cabinet } => self.stop(cabinet),
            Step::Restart { cabinet } => self.restart(cabinet),
            Step::Rollback { cabinet, back } => self.roll_back(cabinet, back),
            Step::Leave { client } => self.leave(client),
        }?;
        self.accepted += 1;
        Ok(outcome)
    }

    /// Comes after the ranges and before all that looks at the run.
    fn steps_are_left(&self) -> Result<(), Refusal> {
        if self.accepted == MOST_STEPS {
            return Err(Refusal::StepsUsedUp);
        }
        Ok(())
    }

    fn begin(&mut self, client: u32, kind: Kind) -> Answer {
        let client = place(client, CLIENTS)?;
        self.steps_are_left()?;
        self.clients[client].begin(kind)?;
        Ok(Outcome::Begun)
    }

    fn send(&mut self, client: u32, cabinet: u32) -> Answer {
        let client = place(client, CLIENTS)?;
        let cabinet = place(cabinet, self.plan.cabinets)?;
        self.steps_are_left()?;
        let operation = self.clients[client].open_operation()?;
        let slot = self.slots.lowest_free().ok_or(Refusal::SlotsFull)?;
        let message = Message {
            client: client as u8,
            cabinet: cabinet as u8,
            operation_number: self.clients[client].operation_number,
            body: match operation.part {
                Part::First => Body::Ask,
                Part::Second => Body::Offer(operation.entry),
            },
        };
        self.slots.fill(slot, message);
        Ok(Outcome::Sent(slot as u8))
    }

    fn deliver(&mut self, slot: u32) -> Answer {
        let slot = place(slot, SLOTS)?;
        self.steps_are_left()?;
        let message = *self.slots.message(slot).ok_or(Refusal::SlotEmpty)?;
        Ok(match message.body {
            Body::Ask => {
                let held = self.cabinets[message.cabinet as usize].ask();
                self.answer(slot, held.map(Body::Held))
            }
            Body::Offer(entry) => {
                let heeded = self.cabinets[message.cabinet as usize].offer(entry);
                self.answer(slot, heeded.then_some(Body::Acknowledged))
            }
            Body::Held(held) => self.hear(slot, message, Part::First, held),
            Body::Acknowledged => self.hear(slot, message, Part::Second, Entry::FACTORY),
        })
    }

    fn answer(&mut self, slot: usize, reply: Option<Body>) -> Outcome {
        match reply {
            Some(body) => {
                self.slots.answer(slot, body);
                Outcome::Answered(slot as u8)
            }
            None => {
                self.slots.empty_one(slot);
                Outcome::Unanswered(slot as u8)
            }
        }
    }

    fn hear(&mut self, slot: usize, message: Message, part: Part, held: Entry) -> Outcome {
        self.slots.empty_one(slot);
        let Message {
            client,
            cabinet,
            operation_number,
            ..
        } = message;
        let reply = Reply {
            operation_number,
            part,
            cabinet,
            held,
        };
        let slot = slot as u8;
        match self.clients[client as usize].hear(client + 1, reply, &self.plan) {
            Heeded::Discarded => Outcome::Discarded(slot),
            Heeded::Counted => Outcome::Counted(slot),
            Heeded::Chosen(entry) => Outcome::Chosen(slot, entry),
            Heeded::Found(entry) => Outcome::Found(slot, entry),
            Heeded::Written(entry) => Outcome::Written(slot, entry),
            Heeded::Read(entry) => Outcome::Read(slot, entry),
        }
    }

    fn lose(&mut self, slot: u32) -> Answer {
        let slot = place(slot, SLOTS)?;
        self.steps_are_left()?;
        self.slots.message(slot).ok_or(Refusal::SlotEmpty)?;
        self.slots.empty_one(slot);
        Ok(Outcome::Lost(slot as u8))
    }

    fn stop(&mut self, cabinet: u32) -> Answer {
        let cabinet = place(cabinet, self.plan.cabinets)?;
        self.steps_are_left()?;
        self.cabinets[cabinet].stop()?;
        Ok(Outcome::Stopped)
    }

    fn restart(&mut self, cabinet: u32) -> Answer {
        let cabinet = place(cabinet, self.plan.cabinets)?;
        self.steps_are_left()?;
        self.cabinets[cabinet].restart(self.plan.profile == Profile::Forgetful);
        Ok(Outcome::Restarted)
    }

    fn roll_back(&mut self, cabinet: u32, back: u32) -> Answer {
        let cabinet = place(cabinet, self.plan.cabinets)?;
        let back = place(back, TO_FACTORY as u32)? + 1;
        self.steps_are_left()?;
        if !self.cabinets[cabinet].can_go_back(back) {
            return Err(Refusal::NoOlderVersion);
        }
        if !self.cabinets[cabinet].is_rolled_back()
            && self.rolled_back_cabinets() >= self.plan.may_roll_back as usize
        {
            return Err(Refusal::TooManyRolledBack);
        }
        self.cabinets[cabinet].roll_back(back);
        Ok(Outcome::RolledBack)
    }

    /// Cabinets, not rollbacks: one cabinet may roll back again and again.
    fn rolled_back_cabinets(&self) -> usize {
        self.cabinets
            .iter()
            .filter(|cabinet| cabinet.is_rolled_back())
            .count()
    }

    fn leave(&mut self, client: u32) -> Answer {
        let client = place(client, CLIENTS)?;
        self.steps_are_left()?;
        self.clients[client].leave()?;
        Ok(Outcome::Left)
    }
}

/// The place, from 0, of a number from 1 to `most`.
fn place(number: u32, most: u32) -> Result<usize, Refusal> {
    let place = number.wrapping_sub(1);
    if place < most {
        Ok(place as usize)
    } else {
        Err(Refusal::OutOfRange)
    }
}
