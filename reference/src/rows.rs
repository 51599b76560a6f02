//! A row in: its five fields read as the header, a plan or a step.

use crate::entry::{Reading, MOST_MINUTES};
use crate::run::Step;

pub const HEADER: &[u8] = b"kind,a,b,c,d";

/// The four numbers of a plan row, in or out of range.
pub fn plan(row: &[u8]) -> Option<[u32; 4]> {
    let (n, rest) = number(row.strip_prefix(b"plan,")?)?;
    let (k, rest) = number(rest)?;
    let (r, rest) = number(rest)?;
    Some([n, k, r, decimal(rest)?])
}

/// Rows over 64 bytes need no test of their own: the longest row of the right
/// form has less than half of that.
pub fn step(row: &[u8]) -> Option<Step> {
    match row.first()? {
        b'd' => deliver(row.strip_prefix(b"deliver,")?),
        b's' => match row.strip_prefix(b"send,") {
            Some(rest) => send(rest),
            None => stop(row.strip_prefix(b"stop,")?),
        },
        b'l' => match row.strip_prefix(b"lose,") {
            Some(rest) => lose(rest),
            None => leave(row.strip_prefix(b"leave,")?),
        },
        b'w' => write(row.strip_prefix(b"write,")?),
        b'r' => read_restart_or_rollback(row),
        _ => None,
    }
}

fn read_restart_or_rollback(row: &[u8]) -> Option<Step> {
    if let Some(rest) = row.strip_prefix(b"read,") {
        let client = only_number(rest)?;
        Some(Step::Read { client })
    } else if let Some(rest) = row.strip_prefix(b"restart,") {
        let cabinet = only_number(rest)?;
        Some(Step::Restart { cabinet })
    } else {
        let (cabinet, back) = two_numbers(row.strip_prefix(b"rollback,")?)?;
        Some(Step::Rollback { cabinet, back })
    }
}

fn deliver(rest: &[u8]) -> Option<Step> {
    let slot = only_number(rest)?;
    Some(Step::Deliver { slot })
}

fn lose(rest: &[u8]) -> Option<Step> {
    let slot = only_number(rest)?;
    Some(Step::Lose { slot })
}

fn stop(rest: &[u8]) -> Option<Step> {
    let cabinet = only_number(rest)?;
    Some(Step::Stop { cabinet })
}

fn leave(rest: &[u8]) -> Option<Step> {
    let client = only_number(rest)?;
    Some(Step::Leave { client })
}

fn send(rest: &[u8]) -> Option<Step> {
    let (client, cabinet) = two_numbers(rest)?;
    Some(Step::Send { client, cabinet })
}

fn write(rest: &[u8]) -> Option<Step> {
    let (client, rest) = number(rest)?;
    let reading = match rest {
        b"closed,," => Reading::Closed,
        b"unknown,," => Reading::Unknown,
        _ => open(rest.strip_prefix(b"open,")?)?,
    };
    Some(Step::Write { client, reading })
}

/// Minutes out of range and a row of another form get the same number, so both
/// end here.
fn open(rest: &[u8]) -> Option<Reading> {
    match number(rest)? {
        (minutes @ 0..=MOST_MINUTES, b"") => Some(Reading::Open(minutes as u8)),
        _ => None,
    }
}

/// One number and three unused fields.
fn only_number(text: &[u8]) -> Option<u32> {
    match number(text)? {
        (value, b",,") => Some(value),
        _ => None,
    }
}

/// Two numbers and two unused fields.
fn two_numbers(text: &[u8]) -> Option<(u32, u32)> {
    let (first, rest) = number(text)?;
    match number(rest)? {
        (second, b",") => Some((first, second)),
        _ => None,
    }
}

/// The number before the first comma, and what follows that comma.
fn number(text: &[u8]) -> Option<(u32, &[u8])> {
    match text {
        // Nearly all numbers have one digit or two.
        [one @ b'0'..=b'9', b',', rest @ ..] => Some((u32::from(one - b'0'), rest)),
        [ten @ b'1'..=b'9', one @ b'0'..=b'9', b',', rest @ ..] => {
            Some((u32::from(ten - b'0') * 10 + u32::from(one - b'0'), rest))
        }
        _ => {
            let comma = text.iter().position(|&byte| byte == b',')?;
            Some((decimal(&text[..comma])?, &text[comma + 1..]))
        }
    }
}

/// A whole field: one to seven digits without leading zeros.
fn decimal(field: &[u8]) -> Option<u32> {
    let leading_zero = field.len() > 1 && field[0] == b'0';
    let digits_only = field.iter().all(u8::is_ascii_digit);
    if !(1..=7).contains(&field.len()) || leading_zero || !digits_only {
        return None;
    }
    Some(
        field
            .iter()
            .fold(0, |value, digit| value * 10 + u32::from(digit - b'0')),
    )
}

#[cfg(test)]
mod tests {
    use super::*;

    #[test]
    fn every_kind_of_row() {
        let open = Reading::Open(6);
        assert_eq!(
            step(b"write,1,open,6,"),
            Some(Step::Write {
                client: 1,
                reading: open
            })
        );
        let closed = Reading::Closed;
        assert_eq!(
            step(b"write,1,closed,,"),
            Some(Step::Write {
                client: 1,
                reading: closed
            })
        );
        assert_eq!(step(b"read,8,,,"), Some(Step::Read { client: 8 }));
        assert_eq!(
            step(b"send,1,2,,"),
            Some(Step::Send {
                client: 1,
                cabinet: 2
            })
        );
        assert_eq!(step(b"deliver,64,,,"), Some(Step::Deliver { slot: 64 }));
        assert_eq!(
            step(b"lose,9999999,,,"),
            Some(Step::Lose { slot: 9_999_999 })
        );
        assert_eq!(step(b"stop,0,,,"), Some(Step::Stop { cabinet: 0 }));
        assert_eq!(step(b"restart,9,,,"), Some(Step::Restart { cabinet: 9 }));
        assert_eq!(
            step(b"rollback,2,1,,"),
            Some(Step::Rollback {
                cabinet: 2,
                back: 1
            })
        );
        assert_eq!(step(b"leave,3,,,"), Some(Step::Leave { client: 3 }));
        assert_eq!(plan(b"plan,3,1,0,0"), Some([3, 1, 0, 0]));
    }

    #[test]
    fn rows_of_another_form() {
        let rows: [&[u8]; 18] = [
            b"",
            b",,,,",
            b"send",
            b"send,1,2,",
            b"send,1,2,,,",
            b"send,1,2,,0",
            b"send,1,2,,\r",
            b"send,01,2,,",
            b"send,00000001,2,,",
            b"send,10000000,2,,",
            b"send,+1,2,,",
            b"send, 1,2,,",
            b"send,\"1\",2,,",
            b"Send,1,2,,",
            b"send,,2,,",
            b"write,1,open,,",
            b"write,1,closed,0,",
            b"write,1,open,241,",
        ];
        for row in rows {
            assert_eq!(step(row), None, "{}", row.escape_ascii());
        }
        assert_eq!(step(b"plan,3,1,0,0"), None);
        assert_eq!(plan(b"plan,3,1,0,"), None);
        assert_eq!(plan(b"plan,3,1,0,0,"), None);
        assert_eq!(plan(b"plan,3,1,0,00"), None);
    }
}
