//! The transcript: output rows, gathered in one buffer and written whole.

use std::io::{self, Write};

use crate::entry::{Entry, Reading};
use crate::plan::{Plan, Profile};
use crate::refusal::Refusal;
use crate::run::{Answer, Outcome};

const HEADER: &[u8; 45] = b"row,answer,outcome,slot,counter,writer,entry\n";

const ROOM: usize = 1 << 17;

/// No output row is longer, with a row number of twenty digits.
const LONGEST_ROW: usize = 64;

pub struct Transcript<W> {
    sink: W,
    buffer: Box<[u8; ROOM]>,
    used: usize,
    row: RowNumber,
}

impl<W: Write> Transcript<W> {
    pub fn new(sink: W) -> Transcript<W> {
        let buffer = Box::new([0; ROOM]);
        let mut transcript = Transcript {
            sink,
            buffer,
            used: 0,
            row: RowNumber::ZERO,
        };
        transcript.put(HEADER);
        transcript
    }

    pub fn no_header(&mut self) {
        self.row_number();
        self.refused(Refusal::NoHeader);
    }

    pub fn plan(&mut self, plan: &Result<Plan, Refusal>) {
        self.row.advance();
        self.row_number();
        match plan {
            Ok(plan) if plan.profile == Profile::Forgetful => self.put(b",0,forgetful,,,,\n"),
            Ok(_) => self.put(b",0,store,,,,\n"),
            Err(refusal) => self.refused(*refusal),
        }
    }

    #[inline]
    pub fn step(&mut self, answer: Answer) -> io::Result<()> {
        if self.used > ROOM - LONGEST_ROW {
            self.write_out()?;
        }
        self.row.advance();
        self.row_number();
        match answer {
            Ok(outcome) => self.accepted(outcome),
            Err(refusal) => self.refused(refusal),
        }
        Ok(())
    }

    /// Writes what is gathered. After an error it is gone, so that nothing can
    /// follow a row that may have been torn.
    pub fn write_out(&mut self) -> io::Result<()> {
        let used = std::mem::take(&mut self.used);
        self.sink.write_all(&self.buffer[..used])
    }

    #[inline]
    fn accepted(&mut self, outcome: Outcome) {
        match outcome {
            Outcome::Begun => self.put(b",0,begun,,,,\n"),
            Outcome::Sent(slot) => self.slot(b",0,sent,", slot),
            Outcome::Answered(slot) => self.slot(b",0,answered,", slot),
            Outcome::Unanswered(slot) => self.slot(b",0,unanswered,", slot),
            Outcome::Discarded(slot) => self.slot(b",0,discarded,", slot),
            Outcome::Counted(slot) => self.slot(b",0,counted,", slot),
            Outcome::Chosen(slot, entry) => self.slot_entry(b",0,chosen,", slot, entry),
            Outcome::Found(slot, entry) => self.slot_entry(b",0,found,", slot, entry),
            Outcome::Written(slot, entry) => self.slot_entry(b",0,written,", slot, entry),
            Outcome::Read(slot, entry) => self.slot_entry(b",0,read,", slot, entry),
            Outcome::Lost(slot) => self.slot(b",0,lost,", slot),
            Outcome::Stopped => self.put(b",0,stopped,,,,\n"),
            Outcome::Restarted => self.put(b",0,restarted,,,,\n"),
            Outcome::RolledBack => self.put(b",0,rolled back,,,,\n"),
            Outcome::Left => self.put(b",0,left,,,,\n"),
        }
    }

    fn refused(&mut self, refusal: Refusal) {
        self.put(b",");
        self.number(u32::from(refusal.number()));
        self.put(b",refused,,,,\n");
    }

    #[inline]
    fn slot<const N: usize>(&mut self, word: &[u8; N], slot: u8) {
        self.put(word);
        self.number(u32::from(slot) + 1);
        self.put(b",,,\n");
    }

    #[inline]
    fn slot_entry<const N: usize>(&mut self, word: &[u8; N], slot: u8, entry: Entry) {
        self.put(word);
        self.number(u32::from(slot) + 1);
        self.put(b",");
        self.entry(entry);
    }

    fn entry(&mut self, entry: Entry) {
        self.number(entry.stamp.counter);
        self.put(b",");
        self.number(u32::from(entry.stamp.writer));
        match entry.reading {
            Reading::Unknown => self.put(b",unknown\n"),
            Reading::Closed => self.put(b",closed\n"),
            Reading::Open(minutes) => {
                self.put(b",open ");
                self.number(u32::from(minutes));
                self.put(b"\n");
            }
        }
    }

    #[inline]
    fn row_number(&mut self) {
        // All places are copied, a fixed length being quicker; what stands
        // behind the number is written over.
        self.buffer[self.used..self.used + DIGITS].copy_from_slice(&self.row.digits);
        self.used += self.row.length;
    }

    #[inline]
    fn put<const N: usize>(&mut self, text: &[u8; N]) {
        self.buffer[self.used..self.used + N].copy_from_slice(text);
        self.used += N;
    }

    #[inline]
    fn number(&mut self, value: u32) {
        match value {
            0..=9 => self.put(&[digit(value)]),
            10..=99 => self.put(&[digit(value / 10), digit(value % 10)]),
            _ => self.long_number(value),
        }
    }

    fn long_number(&mut self, value: u32) {
        if value >= 10 {
            self.long_number(value / 10);
        }
        self.put(&[digit(value % 10)]);
    }
}

fn digit(value: u32) -> u8 {
    b'0' + value as u8
}

/// Enough for any row number that can be counted to.
const DIGITS: usize = 20;

/// A row number kept in decimal: adding one seldom touches more than a digit.
struct RowNumber {
    digits: [u8; DIGITS],
    length: usize,
}

impl RowNumber {
    const ZERO: RowNumber = RowNumber {
        digits: [b'0'; DIGITS],
        length: 1,
    };

    #[inline]
    fn advance(&mut self) {
        for digit in self.digits[..self.length].iter_mut().rev() {
            if *digit < b'9' {
                *digit += 1;
                return;
            }
            *digit = b'0';
        }
        // All were nines: the places behind the number hold zeros.
        self.digits[0] = b'1';
        self.length += 1;
    }
}

#[cfg(test)]
mod tests {
    use super::*;

    #[test]
    fn row_numbers_count_in_decimal() {
        let mut row = RowNumber::ZERO;
        for number in 0..12_345 {
            assert_eq!(&row.digits[..row.length], format!("{number}").as_bytes());
            row.advance();
        }
    }

    #[test]
    fn numbers_of_every_length() {
        for value in [0, 9, 10, 99, 100, 240, 1_000, 65_536, 1_000_000] {
            let mut transcript = Transcript::new(Vec::new());
            transcript.used = 0;
            transcript.number(value);
            transcript.write_out().unwrap();
            assert_eq!(transcript.sink, format!("{value}").as_bytes());
        }
    }
}
