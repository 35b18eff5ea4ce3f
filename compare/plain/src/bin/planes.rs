//! The program `planes_cases` in plain Rust: the same orders on standard input, the same lines on standard output, and a
//! further order, 5, which copies the block to the planes.

use std::hint::black_box;
use std::io::{self, Read, Write};

const ROW: usize = 8;
const MOST_ROWS: usize = 512;
const REFUSED: u32 = 13;

fn main() -> io::Result<()> {
    let mut input = Vec::new();
    io::stdin().lock().read_to_end(&mut input)?;
    let mut orders = Orders { rest: &input };
    let mut out = io::BufWriter::new(io::stdout().lock());
    let (mut block, mut planes) = (Vec::new(), Vec::new());
    for _ in 0..orders.word() {
        match orders.word() {
            1 => block = orders.bytes(),
            2 => planes = orders.bytes(),
            3 => answer(&mut out, "to planes", &mut orders, to_planes, &block, &mut planes)?,
            4 => answer(&mut out, "from planes", &mut orders, from_planes, &planes, &mut block)?,
            5 => answer(&mut out, "copied", &mut orders, copy, &block, &mut planes)?,
            code => panic!("no order {code}"),
        }
    }
    out.flush()
}

/// What is left of the input.
struct Orders<'a> {
    rest: &'a [u8],
}

impl Orders<'_> {
    fn take(&mut self, size: usize) -> &[u8] {
        let (taken, rest) = self.rest.split_at(size);
        self.rest = rest;
        taken
    }

    fn word(&mut self) -> u32 {
        u32::from_le_bytes(self.take(4).try_into().unwrap())
    }

    fn bytes(&mut self) -> Vec<u8> {
        let size = self.word() as usize;
        self.take(size).to_vec()
    }

    fn rows(&mut self) -> usize {
        let (low, high) = (self.word() as usize, self.word() as usize);
        low + (high << 32)
    }
}

/// Makes a call as often as the order says, and prints its number and what the second buffer then holds.
fn answer(
    out: &mut impl Write,
    name: &str,
    orders: &mut Orders,
    call: fn(usize, &[u8], &mut [u8]) -> u32,
    first: &[u8],
    second: &mut [u8],
) -> io::Result<()> {
    let (rows, times) = (orders.rows(), orders.word());
    let mut number = call(rows, first, second);
    for _ in 1..times {
        number = call(black_box(rows), black_box(first), black_box(second));
    }
    writeln!(out, "{name}, rows {rows}, bytes {} and {}: {number}", first.len(), second.len())?;
    for byte in second {
        write!(out, "{byte:02x}")?;
    }
    writeln!(out)
}

fn fits(rows: usize, first: &[u8], second: &[u8]) -> bool {
    (1..=MOST_ROWS).contains(&rows) && first.len() == ROW * rows && second.len() == ROW * rows
}

fn to_planes(rows: usize, block: &[u8], planes: &mut [u8]) -> u32 {
    if !fits(rows, block, planes) {
        return REFUSED;
    }
    for (row, number) in block.chunks_exact(ROW).enumerate() {
        for (byte, &value) in number.iter().enumerate() {
            planes[rows * byte + row] = value;
        }
    }
    0
}

fn from_planes(rows: usize, planes: &[u8], block: &mut [u8]) -> u32 {
    if !fits(rows, planes, block) {
        return REFUSED;
    }
    for (row, number) in block.chunks_exact_mut(ROW).enumerate() {
        for (byte, value) in number.iter_mut().enumerate() {
            *value = planes[rows * byte + row];
        }
    }
    0
}

fn copy(rows: usize, from: &[u8], into: &mut [u8]) -> u32 {
    if !fits(rows, from, into) {
        return REFUSED;
    }
    into.copy_from_slice(from);
    0
}
