//! The program: a step list on standard input, its transcript on standard output.

mod cabinet;
mod client;
mod entry;
mod lines;
mod plan;
mod refusal;
mod rehearsal;
mod rows;
mod run;
mod slots;
mod transcript;

use std::fs::File;
use std::io::{self, Write};
use std::os::fd::AsFd;
use std::process::ExitCode;

fn main() -> ExitCode {
    match rehearse_standard_streams() {
        Ok(()) => ExitCode::SUCCESS,
        Err(error) => {
            // Nothing is left to do where even this cannot be said.
            let _ = writeln!(io::stderr(), "reference: {error}");
            ExitCode::FAILURE
        }
    }
}

/// Plain files over copies of the descriptors: the standard library's own
/// handles take a descriptor that cannot be read or written for an empty one.
fn rehearse_standard_streams() -> io::Result<()> {
    let input = File::from(io::stdin().as_fd().try_clone_to_owned()?);
    let output = File::from(io::stdout().as_fd().try_clone_to_owned()?);
    rehearsal::rehearse(input, output)
}
