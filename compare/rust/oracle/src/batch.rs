//! Many cases in one process: on standard input a mode, a length and that many bytes, over and over; on standard output
//! a length and the answer for each. All words are 32-bit little-endian.

use std::cell::RefCell;
use std::io::{self, ErrorKind, Read, Write};
use std::panic::{self, AssertUnwindSafe};

use crate::{driver, levels, replay, timetable};

const REPLAY: u32 = 1;
const DRIVER: u32 = 2;
const TIMETABLE: u32 = 3;
const LEVELS: u32 = 4;

thread_local! {
    /// What the last panic said and where.
    static LAST_PANIC: RefCell<String> = const { RefCell::new(String::new()) };
}

pub fn run(input: &mut impl Read, out: &mut impl Write) -> io::Result<()> {
    panic::set_hook(Box::new(|panic| LAST_PANIC.set(panic.to_string().replace('\n', " "))));
    while let Some(mode) = first_word(input)? {
        let mut bytes = vec![0; word(input)? as usize];
        input.read_exact(&mut bytes)?;
        let answer = answer(mode, &bytes)?;
        out.write_all(&(answer.len() as u32).to_le_bytes())?;
        out.write_all(&answer)?;
    }
    Ok(())
}

/// The mode's output. A panic ends the case and not the batch: the answer is then what stands before it, and a line
/// that begins with `panic`.
fn answer(mode: u32, bytes: &[u8]) -> io::Result<Vec<u8>> {
    let mut answer = Vec::new();
    let run = panic::catch_unwind(AssertUnwindSafe(|| match mode {
        REPLAY => replay::replay(bytes, &mut answer),
        DRIVER => driver::drive(bytes, &mut answer),
        TIMETABLE => timetable::tabulate(bytes, &mut answer),
        LEVELS => levels::answer(bytes, &mut answer),
        _ => panic!("no such mode: {mode}"),
    }));
    match run {
        Ok(written) => written?,
        Err(_) => writeln!(answer, "\npanic {}", LAST_PANIC.take())?,
    }
    Ok(answer)
}

/// The word before a case; none at the end of the input.
fn first_word(input: &mut impl Read) -> io::Result<Option<u32>> {
    match word(input) {
        Err(error) if error.kind() == ErrorKind::UnexpectedEof => Ok(None),
        other => other.map(Some),
    }
}

fn word(input: &mut impl Read) -> io::Result<u32> {
    let mut bytes = [0; 4];
    input.read_exact(&mut bytes)?;
    Ok(u32::from_le_bytes(bytes))
}
