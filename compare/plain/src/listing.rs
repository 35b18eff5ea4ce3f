//! The lines of the driver and of the timetable, gathered and written in large pieces.

use std::io::{self, Write};

use crate::project::Fault;

const PIECE: usize = 1 << 16;

pub struct Listing<W> {
    text: Vec<u8>,
    out: W,
}

impl<W: Write> Listing<W> {
    pub fn new(out: W) -> Self {
        Listing { text: Vec::with_capacity(PIECE), out }
    }

    pub fn header(&mut self) -> io::Result<()> {
        self.text.extend_from_slice(b"from length");
        self.end_line()
    }

    pub fn step(&mut self, from: u32, length: u32) -> io::Result<()> {
        self.decimal(from);
        self.text.push(b' ');
        self.decimal(length);
        self.end_line()
    }

    pub fn stop(&mut self, instant: u32) -> io::Result<()> {
        self.decimal(instant);
        self.end_line()
    }

    pub fn none(&mut self) -> io::Result<()> {
        self.text.extend_from_slice(b"none");
        self.end_line()
    }

    pub fn count(&mut self, steps: u32) -> io::Result<()> {
        self.text.extend_from_slice(b"steps ");
        self.decimal(steps);
        self.end_line()
    }

    pub fn refusal(&mut self, Fault(number): Fault) -> io::Result<()> {
        self.text.extend_from_slice(b"refused ");
        self.decimal(number);
        self.end_line()
    }

    pub fn end(mut self) -> io::Result<()> {
        self.out.write_all(&self.text)?;
        self.out.flush()
    }

    fn end_line(&mut self) -> io::Result<()> {
        const LONGEST_LINE: usize = 32;
        self.text.push(b'\n');
        if self.text.len() > PIECE - LONGEST_LINE {
            self.out.write_all(&self.text)?;
            self.text.clear();
        }
        Ok(())
    }

    fn decimal(&mut self, mut number: u32) {
        const MOST_DIGITS: usize = 10;
        let mut digits = [0; MOST_DIGITS];
        let mut at = MOST_DIGITS;
        loop {
            at -= 1;
            digits[at] = b'0' + (number % 10) as u8;
            number /= 10;
            if number == 0 {
                break;
            }
        }
        self.text.extend_from_slice(&digits[at..]);
    }
}
