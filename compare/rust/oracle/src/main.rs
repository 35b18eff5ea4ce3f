//! The reference's answers on our inputs: `oracle replay`, `oracle driver`, `oracle timetable`, `oracle levels` and
//! `oracle batch`.

mod batch;
mod driver;
mod image;
mod input;
mod levels;
mod load;
mod network;
mod progress;
mod project;
mod replay;
mod second_clock;
mod timetable;

use std::io::{self, BufWriter, Read, Write};
use std::process::ExitCode;

fn main() -> ExitCode {
    let mode = std::env::args().nth(1).unwrap_or_default();
    match run(&mode) {
        Ok(true) => ExitCode::SUCCESS,
        Ok(false) => {
            eprintln!("usage: oracle replay | driver | timetable | levels | batch, with the input on standard input");
            ExitCode::from(2)
        }
        Err(error) => {
            eprintln!("oracle: {error}");
            ExitCode::from(2)
        }
    }
}

/// False where there is no such mode.
fn run(mode: &str) -> io::Result<bool> {
    let mut out = BufWriter::new(io::stdout().lock());
    match mode {
        "replay" => replay::replay(&standard_input()?, &mut out)?,
        "driver" => driver::drive(&standard_input()?, &mut out)?,
        "timetable" => timetable::tabulate(&standard_input()?, &mut out)?,
        "levels" => levels::answer(&standard_input()?, &mut out)?,
        "batch" => batch::run(&mut io::stdin().lock(), &mut out)?,
        _ => return Ok(false),
    }
    out.flush()?;
    Ok(true)
}

fn standard_input() -> io::Result<Vec<u8>> {
    let mut bytes = Vec::new();
    io::stdin().lock().read_to_end(&mut bytes)?;
    Ok(bytes)
}
