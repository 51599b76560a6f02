//! The input cut into rows, read in big pieces and held in a fixed buffer.

use std::io::{self, Read};

const ROOM: usize = 1 << 17;

/// Of a row that the buffer cannot hold this much is kept: more than any row of
/// the right form has, even when its last byte is taken for the CR of its end.
const KEPT: usize = 66;

pub struct Lines<R> {
    source: R,
    buffer: Box<[u8]>,
    /// The bytes from `start` to `end` are read and not yet handed out.
    start: usize,
    end: usize,
    ended: bool,
}

impl<R: Read> Lines<R> {
    pub fn new(source: R) -> Lines<R> {
        let buffer = vec![0; ROOM].into_boxed_slice();
        Lines {
            source,
            buffer,
            start: 0,
            end: 0,
            ended: false,
        }
    }

    /// The next row without its end. An over-long row may come shortened, and
    /// is over-long still.
    #[inline]
    pub fn next(&mut self) -> io::Result<Option<&[u8]>> {
        let start = self.start;
        match line_feed(&self.buffer[start..self.end]) {
            Some(at) => {
                self.start = start + at + 1;
                Ok(Some(without_cr(&self.buffer[start..start + at])))
            }
            None => self.next_over_the_edge(),
        }
    }

    /// The next row when what is in the buffer does not end it.
    #[cold]
    fn next_over_the_edge(&mut self) -> io::Result<Option<&[u8]>> {
        loop {
            let seen = (self.end - self.start).min(KEPT);
            self.buffer.copy_within(self.start..self.start + seen, 0);
            (self.start, self.end) = (0, seen);
            if !self.read_more()? {
                self.start = seen;
                // Without a LF nothing is cut off, a CR neither.
                return Ok((seen > 0).then_some(&self.buffer[..seen]));
            }
            if let Some(at) = line_feed(&self.buffer[seen..self.end]) {
                self.start = seen + at + 1;
                return Ok(Some(without_cr(&self.buffer[..seen + at])));
            }
        }
    }

    /// Reads behind `end`; false at the end of input, which is asked for once.
    fn read_more(&mut self) -> io::Result<bool> {
        while !self.ended {
            match self.source.read(&mut self.buffer[self.end..]) {
                Ok(0) => self.ended = true,
                Ok(count) => {
                    self.end += count;
                    return Ok(true);
                }
                Err(error) if error.kind() == io::ErrorKind::Interrupted => {}
                Err(error) => return Err(error),
            }
        }
        Ok(false)
    }
}

fn without_cr(row: &[u8]) -> &[u8] {
    row.strip_suffix(b"\r").unwrap_or(row)
}

/// Where the first LF is, eight bytes at a time.
#[inline]
fn line_feed(bytes: &[u8]) -> Option<usize> {
    const ONES: u64 = u64::from_le_bytes([1; 8]);
    const HIGHS: u64 = u64::from_le_bytes([0x80; 8]);
    const LINE_FEEDS: u64 = u64::from_le_bytes([b'\n'; 8]);
    let (words, rest) = bytes.as_chunks::<8>();
    for (index, word) in words.iter().enumerate() {
        // The lowest bit set marks the lowest byte that is zero.
        let word = u64::from_le_bytes(*word) ^ LINE_FEEDS;
        let zeros = word.wrapping_sub(ONES) & !word & HIGHS;
        if zeros != 0 {
            return Some(index * 8 + zeros.trailing_zeros() as usize / 8);
        }
    }
    let at = rest.iter().position(|&byte| byte == b'\n')?;
    Some(words.len() * 8 + at)
}

#[cfg(test)]
mod tests {
    use super::*;

    /// Hands out at most so many bytes at a time.
    struct Drip<'a>(&'a [u8], usize);

    impl Read for Drip<'_> {
        fn read(&mut self, buffer: &mut [u8]) -> io::Result<usize> {
            let count = self.1.min(self.0.len()).min(buffer.len());
            buffer[..count].copy_from_slice(&self.0[..count]);
            self.0 = &self.0[count..];
            Ok(count)
        }
    }

    fn rows(input: &[u8], piece: usize) -> Vec<Vec<u8>> {
        let mut lines = Lines::new(Drip(input, piece));
        let mut rows = Vec::new();
        while let Some(row) = lines.next().unwrap() {
            rows.push(row.to_vec());
        }
        rows
    }

    #[test]
    fn line_ends() {
        for piece in [1, 2, 3, 1000] {
            assert!(rows(b"", piece).is_empty());
            assert_eq!(rows(b"\n", piece), [b""]);
            assert_eq!(
                rows(b"ab\r\n\nc\r\r\n\r", piece),
                [&b"ab"[..], b"", b"c\r", b"\r"]
            );
            assert_eq!(rows(b"ab\ncd", piece), [b"ab", b"cd"]);
        }
    }

    #[test]
    fn a_row_longer_than_the_buffer_stays_one_row() {
        let mut input = b"first\n".to_vec();
        input.extend(vec![b'x'; 3 * ROOM]);
        input.extend(b"\nlast\n");
        for piece in [777, ROOM] {
            let rows = rows(&input, piece);
            assert_eq!(rows.len(), 3);
            assert!(rows[1].len() > 64);
            assert_eq!(rows[2], b"last");
        }
    }

    #[test]
    fn every_place_of_a_line_feed() {
        for length in 0..40 {
            let mut bytes = vec![0x8a; length];
            assert_eq!(line_feed(&bytes), None);
            for at in (0..length).rev() {
                bytes[at] = b'\n';
                assert_eq!(line_feed(&bytes), Some(at));
            }
        }
    }
}
