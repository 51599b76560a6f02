//! A rehearsal: the rows of a step list answered one after another.

use std::io::{self, Read, Write};

use crate::lines::Lines;
use crate::plan::Plan;
use crate::refusal::Refusal;
use crate::rows;
use crate::run::Run;
use crate::transcript::Transcript;

pub fn rehearse(input: impl Read, output: impl Write) -> io::Result<()> {
    let mut transcript = Transcript::new(output);
    let end = answer_all(Lines::new(input), &mut transcript);
    // The rows answered before an error in reading are whole, and written.
    transcript.write_out().and(end)
}

fn answer_all<R: Read, W: Write>(
    mut lines: Lines<R>,
    transcript: &mut Transcript<W>,
) -> io::Result<()> {
    if lines.next()? != Some(rows::HEADER) {
        transcript.no_header();
        return Ok(());
    }
    let Some(row) = lines.next()? else {
        return Ok(());
    };
    let plan = match rows::plan(row) {
        Some([n, k, r, b]) => Plan::new(n, k, r, b),
        None => Err(Refusal::OutOfRange),
    };
    transcript.plan(&plan);
    match plan {
        Ok(plan) => answer_steps(Run::fresh(plan), lines, transcript),
        Err(_) => Ok(()),
    }
}

fn answer_steps<R: Read, W: Write>(
    mut run: Run,
    mut lines: Lines<R>,
    transcript: &mut Transcript<W>,
) -> io::Result<()> {
    while let Some(row) = lines.next()? {
        let answer = match rows::step(row) {
            Some(step) => run.step(step),
            None => Err(Refusal::OutOfRange),
        };
        transcript.step(answer)?;
    }
    Ok(())
}

#[cfg(test)]
mod tests {
    use super::*;

    fn transcript_of(input: &[u8]) -> String {
        let mut output = Vec::new();
        rehearse(input, &mut output).unwrap();
        String::from_utf8(output).unwrap()
    }

    const HEADER: &str = "row,answer,outcome,slot,counter,writer,entry\n";

    #[test]
    fn case_r1() {
        let input = b"kind,a,b,c,d\nplan,3,1,0,0\nwrite,1,open,6,\nsend,1,1,,\ndeliver,1,,,\n\
            deliver,1,,,\nrestart,2,,,\nsend,1,2,,\ndeliver,1,,,\ndeliver,1,,,\n";
        let rows = "1,0,forgetful,,,,\n2,0,begun,,,,\n3,0,sent,1,,,\n4,0,answered,1,,,\n\
            5,0,counted,1,,,\n6,0,restarted,,,,\n7,0,sent,1,,,\n8,0,unanswered,1,,,\n\
            9,8,refused,,,,\n";
        assert_eq!(transcript_of(input), format!("{HEADER}{rows}"));
    }

    #[test]
    fn headers_and_refused_plans() {
        let refused = |row: &str| format!("{HEADER}{row},refused,,,,\n");
        assert_eq!(transcript_of(b""), refused("0,13"));
        assert_eq!(transcript_of(b"kind,a,b,c,d\r"), refused("0,13"));
        assert_eq!(
            transcript_of(b"Kind,a,b,c,d\nplan,3,1,0,0\n"),
            refused("0,13")
        );
        assert_eq!(transcript_of(b"kind,a,b,c,d"), HEADER);
        assert_eq!(transcript_of(b"kind,a,b,c,d\r\n"), HEADER);
        assert_eq!(transcript_of(b"kind,a,b,c,d\n\n"), refused("1,2"));
        assert_eq!(
            transcript_of(b"kind,a,b,c,d\nplan,3,1,1,1\nread,1,,,\n"),
            refused("1,12")
        );
    }

    /// Fails once its bytes are used up.
    struct Broken<'a>(&'a [u8]);

    impl Read for Broken<'_> {
        fn read(&mut self, buffer: &mut [u8]) -> io::Result<usize> {
            match self.0.read(buffer)? {
                0 => Err(io::Error::other("broken")),
                count => Ok(count),
            }
        }
    }

    #[test]
    fn an_error_in_reading_leaves_whole_rows() {
        let mut output = Vec::new();
        let input = Broken(b"kind,a,b,c,d\nplan,3,1,0,0\nread,1,,,");
        assert!(rehearse(input, &mut output).is_err());
        assert_eq!(output, format!("{HEADER}1,0,forgetful,,,,\n").as_bytes());
    }
}
