//! The list of a port in words for people: each object with its volts and amperes, what holds at exactly 15.0 V, and a picture of volts
//! against amperes. The list is the library's own; nothing of it is worked out here.

mod asked;
mod figures;
mod picture;
mod supplies;
#[cfg(test)]
mod tests;
mod told;

use std::io::{self, ErrorKind, Write};
use std::process::ExitCode;

use asked::Asked;

const REFUSED: u8 = 1;
const BAD_USAGE: u8 = 2;

fn main() -> ExitCode {
    // Words that are not UTF-8 are bad usage like any other word that is not known.
    let words: Vec<String> =
        std::env::args_os().skip(1).map(|word| word.to_string_lossy().into_owned()).collect();
    let asked = match asked::asked(&words) {
        Ok(asked) => asked,
        Err(why) => return ended(BAD_USAGE, &format!("{why} (--help tells)")),
    };
    let told = match asked {
        Asked::Help => Ok(asked::HELP.to_string()),
        Asked::Port(profile) => told::port(profile),
        Asked::List(words) => told::list(&words),
    };
    match told {
        Ok(text) => printed(&text),
        Err(refusal) => ended(REFUSED, &refusal),
    }
}

fn ended(status: u8, why: &str) -> ExitCode {
    // Where standard error is closed too, the status is all that is left to tell.
    let _ = writeln!(io::stderr(), "show: {why}");
    ExitCode::from(status)
}

fn printed(text: &str) -> ExitCode {
    let mut out = io::stdout().lock();
    match out.write_all(text.as_bytes()).and_then(|()| out.flush()) {
        Ok(()) => ExitCode::SUCCESS,
        // A reader that has seen enough, as `head` does, is no failure.
        Err(error) if error.kind() == ErrorKind::BrokenPipe => ExitCode::SUCCESS,
        Err(error) => ended(REFUSED, &format!("cannot write: {error}")),
    }
}
