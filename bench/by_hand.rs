//! The ring program as plain Rust that formats by hand: bytes and digits go straight into one
//! buffer, which is written once.
use rules::Lines;
use std::io::{self, Write};

#[path = "rules.rs"]
mod rules;

/// No printout is longer: PK has two bytes and a line of twenty at most, any other record three or
/// more and a line of forty at most.
const TEXT_LIMIT: usize = 1 << 20;

struct Text {
    bytes: Vec<u8>,
    used: usize,
}

impl Text {
    fn put(&mut self, piece: &[u8]) {
        self.bytes[self.used..self.used + piece.len()].copy_from_slice(piece);
        self.used += piece.len();
    }

    fn number(&mut self, mut n: u32) {
        let count = n.max(1).ilog10() as usize + 1;
        for place in self.bytes[self.used..self.used + count].iter_mut().rev() {
            *place = b'0' + (n % 10) as u8;
            n /= 10;
        }
        self.used += count;
    }
}

impl Lines for Text {
    fn bench(&mut self, ordinal: u32, number: usize, key: u32) -> io::Result<()> {
        self.number(ordinal);
        self.put(b" bench ");
        self.number(number as u32);
        self.put(b" key ");
        self.number(key);
        self.put(b"\n");
        Ok(())
    }

    fn owner(&mut self, ordinal: u32, number: u8, hops: usize) -> io::Result<()> {
        self.number(ordinal);
        self.put(b" owner ");
        self.number(number as u32);
        self.put(b" hops ");
        self.number(hops as u32);
        self.put(b"\n");
        Ok(())
    }

    fn ran(&mut self, ordinal: u32, made: u16, left: usize) -> io::Result<()> {
        self.number(ordinal);
        self.put(b" ran ");
        self.number(made as u32);
        self.put(b" left ");
        self.number(left as u32);
        self.put(b"\n");
        Ok(())
    }

    fn word(&mut self, ordinal: u32, word: &str) -> io::Result<()> {
        self.number(ordinal);
        self.put(b" ");
        self.put(word.as_bytes());
        self.put(b"\n");
        Ok(())
    }

    fn no(&mut self, ordinal: u32, number: u8) -> io::Result<()> {
        self.number(ordinal);
        self.put(b" no ");
        self.number(number as u32);
        self.put(b"\n");
        Ok(())
    }

    fn end(&mut self, waiting: usize, posted: u32) -> io::Result<()> {
        self.put(b"end ");
        self.number(waiting as u32);
        self.put(b" posted ");
        self.number(posted);
        self.put(b"\n");
        Ok(())
    }
}

fn main() -> io::Result<()> {
    let script = rules::script()?;
    let mut text = Text { bytes: vec![0; TEXT_LIMIT], used: 0 };
    text.put(b"ring 1\n");
    rules::run(&script, &mut text)?;
    io::stdout().write_all(&text.bytes[..text.used])
}
