//! A cabinet's record, and what it does with an ask, an offer and a fault.

use crate::entry::Entry;
use crate::refusal::Refusal;

const MOST_VERSIONS: usize = 8;

/// Of a rollback: to the factory entry instead of so many versions.
pub const TO_FACTORY: usize = 8;

#[derive(Clone, Copy, Debug, PartialEq, Eq)]
enum Power {
    Down,
    Up,
    /// Up after a restart that lost its entry: it takes offers, but what it
    /// holds says nothing, for the rest of the run.
    Stale,
}

#[derive(Clone, Copy, Debug)]
pub struct Cabinet {
    power: Power,
    has_store: bool,
    rolled_back: bool,
    kept: usize,
    /// The newest first; the places from `kept` on mean nothing.
    versions: [Entry; MOST_VERSIONS],
}

impl Cabinet {
    pub fn fresh(has_store: bool) -> Cabinet {
        Cabinet {
            power: Power::Up,
            has_store,
            rolled_back: false,
            kept: 1,
            versions: [Entry::FACTORY; MOST_VERSIONS],
        }
    }

    pub fn is_rolled_back(&self) -> bool {
        self.rolled_back
    }

    /// What it holds, if it may say so.
    pub fn ask(&self) -> Option<Entry> {
        (self.power == Power::Up).then_some(self.versions[0])
    }

    /// Takes a newer entry; whether it acknowledges. An equal stamp is kept
    /// out, or it would push an older version off the store.
    pub fn offer(&mut self, offered: Entry) -> bool {
        if self.power == Power::Down {
            return false;
        }
        if offered.stamp > self.versions[0].stamp {
            self.take(offered);
        }
        true
    }

    fn take(&mut self, offered: Entry) {
        if self.has_store {
            self.versions.copy_within(..MOST_VERSIONS - 1, 1);
            self.kept = (self.kept + 1).min(MOST_VERSIONS);
        }
        self.versions[0] = offered;
    }

    pub fn stop(&mut self) -> Result<(), Refusal> {
        if self.power == Power::Down {
            return Err(Refusal::CabinetDown);
        }
        self.power = Power::Down;
        Ok(())
    }

    pub fn restart(&mut self, forgetful: bool) {
        if !self.has_store {
            self.versions[0] = Entry::FACTORY;
        }
        self.power = if forgetful { Power::Stale } else { Power::Up };
    }

    /// The factory entry is never out of reach, however many entries were
    /// taken since; a cabinet that holds it has nothing older.
    pub fn can_go_back(&self, back: usize) -> bool {
        self.has_store
            && if back == TO_FACTORY {
                self.versions[0].stamp != Entry::FACTORY.stamp
            } else {
                back < self.kept
            }
    }

    /// Only where `can_go_back` holds.
    pub fn roll_back(&mut self, back: usize) {
        if back == TO_FACTORY {
            self.versions[0] = Entry::FACTORY;
            self.kept = 1;
        } else {
            self.versions.copy_within(back..self.kept, 0);
            self.kept -= back;
        }
        self.power = Power::Up;
        self.rolled_back = true;
    }
}

#[cfg(test)]
mod tests {
    use super::*;
    use crate::entry::{Reading, Stamp};

    fn entry(counter: u32, writer: u8) -> Entry {
        Entry {
            stamp: Stamp { counter, writer },
            reading: Reading::Closed,
        }
    }

    #[test]
    fn an_equal_stamp_adds_no_version() {
        let mut cabinet = Cabinet::fresh(true);
        assert!(cabinet.offer(entry(1, 1)));
        assert!(cabinet.offer(entry(1, 1)));
        assert!(cabinet.can_go_back(1));
        assert!(!cabinet.can_go_back(2));
    }

    #[test]
    fn a_store_keeps_eight_versions() {
        let mut cabinet = Cabinet::fresh(true);
        for counter in 1..=20 {
            cabinet.offer(entry(counter, 1));
        }
        cabinet.roll_back(7);
        assert_eq!(cabinet.ask(), Some(entry(13, 1)));
        assert!(!cabinet.can_go_back(1));
        assert!(cabinet.can_go_back(TO_FACTORY));
    }

    #[test]
    fn the_factory_entry_needs_no_version_kept() {
        let mut cabinet = Cabinet::fresh(true);
        assert!(!cabinet.can_go_back(TO_FACTORY));
        for taken in [1, 20] {
            for counter in 1..=taken {
                cabinet.offer(entry(counter, 1));
            }
            assert!(cabinet.can_go_back(TO_FACTORY));
            cabinet.roll_back(TO_FACTORY);
            assert_eq!(cabinet.ask(), Some(Entry::FACTORY));
            assert!(cabinet.is_rolled_back());
            assert!(!cabinet.can_go_back(1));
            assert!(!cabinet.can_go_back(TO_FACTORY));
        }
    }

    #[test]
    fn a_stale_cabinet_takes_offers_but_answers_no_ask() {
        let mut cabinet = Cabinet::fresh(false);
        cabinet.restart(true);
        assert!(cabinet.offer(entry(3, 1)));
        assert_eq!(cabinet.ask(), None);
    }
}
