//! The ring program as plain Rust: the standard library's formatting, into a buffered standard
//! output.
use rules::Lines;
use std::io::{self, BufWriter, StdoutLock, Write};

#[path = "rules.rs"]
mod rules;

struct Printer(BufWriter<StdoutLock<'static>>);

impl Lines for Printer {
    fn bench(&mut self, ordinal: u32, number: usize, key: u32) -> io::Result<()> {
        writeln!(self.0, "{ordinal} bench {number} key {key}")
    }

    fn owner(&mut self, ordinal: u32, number: u8, hops: usize) -> io::Result<()> {
        writeln!(self.0, "{ordinal} owner {number} hops {hops}")
    }

    fn ran(&mut self, ordinal: u32, made: u16, left: usize) -> io::Result<()> {
        writeln!(self.0, "{ordinal} ran {made} left {left}")
    }

    fn word(&mut self, ordinal: u32, word: &str) -> io::Result<()> {
        writeln!(self.0, "{ordinal} {word}")
    }

    fn no(&mut self, ordinal: u32, number: u8) -> io::Result<()> {
        writeln!(self.0, "{ordinal} no {number}")
    }

    fn end(&mut self, waiting: usize, posted: u32) -> io::Result<()> {
        writeln!(self.0, "end {waiting} posted {posted}")
    }
}

fn main() -> io::Result<()> {
    let script = rules::script()?;
    let mut printer = Printer(BufWriter::with_capacity(1 << 16, io::stdout().lock()));
    writeln!(printer.0, "ring 1")?;
    rules::run(&script, &mut printer)?;
    printer.0.flush()
}
