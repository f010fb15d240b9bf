//! The rules of the ring program of papers 01 and 02 as plain Rust, for the programs that the
//! proved one is measured against: one network changed in place, and no test of well-formedness. It
//! shares no line with the proved program. How a line is written is left to each program.
use std::io::{self, Read};

const CAPACITY: usize = 32;
const QUEUE_LIMIT: usize = 64;
const SIZE_LIMIT: usize = 65_536;
const SERIAL_LIMIT: u32 = 99_999_999;

#[derive(Clone, Copy, PartialEq)]
enum Status {
    Out,
    Ins,
    In,
    Del,
}

#[derive(Clone, Copy)]
struct Node {
    status: Status,
    key: u32,
    left: Option<u8>,
    right: Option<u8>,
    lseq: u16,
    rseq: Option<u16>,
}

#[derive(Clone, Copy)]
enum Kind {
    SetR { new: u8, expected: u8, number: u16 },
    SetRAck(u16),
    SetRNak,
    SetL { left: u8, number: u16 },
}

#[derive(Clone, Copy)]
struct Message {
    sender: u8,
    to: u8,
    kind: Kind,
}

struct Network {
    nodes: Vec<Node>,
    messages: Vec<Message>,
    posted: u32,
}

/// The number of a refusal.
struct No(u8);

fn between(a: u32, b: u32, u: u32) -> bool {
    if a < b {
        a < u && u < b
    } else if a > b {
        u > a || u < b
    } else {
        u != a
    }
}

fn within(a: u32, b: u32, u: u32) -> bool {
    u == a || between(a, b, u)
}

impl Network {
    fn new() -> Network {
        Network { nodes: Vec::with_capacity(CAPACITY), messages: Vec::with_capacity(QUEUE_LIMIT), posted: 0 }
    }

    fn post(&mut self, sender: u8, to: u8, kind: Kind) {
        self.messages.push(Message { sender, to, kind });
        self.posted += 1;
    }

    fn declared(&self, u: u8) -> Result<usize, No> {
        if (u as usize) < self.nodes.len() {
            Ok(u as usize)
        } else {
            Err(No(5))
        }
    }

    fn notice_waits(&self, u: u8) -> bool {
        self.messages.iter().any(|m| m.to == u && matches!(m.kind, Kind::SetL { .. }))
    }

    fn is_full(&self) -> bool {
        self.messages.len() >= QUEUE_LIMIT
    }

    fn declare(&mut self, key: u32) -> Result<usize, No> {
        if self.nodes.len() == CAPACITY {
            return Err(No(20));
        }
        if self.nodes.iter().any(|n| n.key == key) {
            return Err(No(21));
        }
        self.nodes.push(Node { status: Status::Out, key, left: None, right: None, lseq: 0, rseq: None });
        Ok(self.nodes.len() - 1)
    }

    fn create(&mut self, u: u8) -> Result<&'static str, No> {
        let i = self.declared(u)?;
        if self.nodes.iter().any(|n| n.status != Status::Out) {
            return Err(No(22));
        }
        if self.notice_waits(u) {
            return Err(No(25));
        }
        let node = &mut self.nodes[i];
        *node = Node { status: Status::In, key: node.key, left: Some(u), right: Some(u), lseq: 0, rseq: Some(0) };
        Ok("created")
    }

    fn join(&mut self, u: u8, p: u8, q: u8) -> Result<&'static str, No> {
        let i = self.declared(u)?;
        let left_key = self.nodes[self.declared(p)?].key;
        let right_key = self.nodes[self.declared(q)?].key;
        if self.nodes[i].status != Status::Out {
            return Err(No(23));
        }
        if self.notice_waits(u) {
            return Err(No(25));
        }
        if !between(left_key, right_key, self.nodes[i].key) {
            return Err(No(24));
        }
        if self.is_full() {
            return Err(No(28));
        }
        let node = &mut self.nodes[i];
        node.status = Status::Ins;
        node.left = Some(p);
        node.right = Some(q);
        let number = node.lseq;
        self.post(u, p, Kind::SetR { new: u, expected: q, number });
        Ok("waiting")
    }

    fn leave(&mut self, u: u8) -> Result<&'static str, No> {
        let i = self.declared(u)?;
        let node = self.nodes[i];
        if node.status != Status::In {
            return Err(No(26));
        }
        let (Some(left), Some(right), Some(rseq)) = (node.left, node.right, node.rseq) else {
            return Err(No(6));
        };
        if right == u {
            self.nodes[i].status = Status::Out;
            return Ok("out");
        }
        if rseq == u16::MAX {
            return Err(No(27));
        }
        if self.is_full() {
            return Err(No(28));
        }
        self.nodes[i].status = Status::Del;
        self.post(u, left, Kind::SetR { new: right, expected: u, number: rseq + 1 });
        Ok("waiting")
    }

    fn deliver(&mut self, place: usize) -> Result<&'static str, No> {
        let Some(&message) = self.messages.get(place) else {
            return Err(No(29));
        };
        let p = message.to;
        let v = message.sender;
        let node = self.nodes[p as usize];
        match message.kind {
            Kind::SetR { new, expected, number } => {
                let rseq = node.rseq.unwrap_or(0);
                let grants = node.status == Status::In && node.right == Some(expected) && (new != v || rseq < u16::MAX);
                if grants && self.is_full() {
                    return Err(No(28));
                }
                self.messages.remove(place);
                if !grants {
                    self.post(p, v, Kind::SetRNak);
                    return Ok("denied");
                }
                if new == v {
                    self.post(p, expected, Kind::SetL { left: v, number: rseq + 1 });
                } else {
                    self.post(p, new, Kind::SetL { left: p, number });
                }
                self.post(p, v, Kind::SetRAck(rseq.saturating_add(1)));
                let node = &mut self.nodes[p as usize];
                node.right = Some(new);
                node.rseq = Some(number);
                Ok("granted")
            }
            Kind::SetRAck(number) => {
                self.messages.remove(place);
                let node = &mut self.nodes[p as usize];
                match node.status {
                    Status::Ins => {
                        node.status = Status::In;
                        node.rseq = Some(number);
                        Ok("joined")
                    }
                    Status::Del => {
                        node.status = Status::Out;
                        Ok("gone")
                    }
                    _ => Ok("dropped"),
                }
            }
            Kind::SetRNak => {
                self.messages.remove(place);
                let node = &mut self.nodes[p as usize];
                match node.status {
                    Status::Ins => {
                        node.status = Status::Out;
                        Ok("join-denied")
                    }
                    Status::Del => {
                        node.status = Status::In;
                        Ok("leave-denied")
                    }
                    _ => Ok("dropped"),
                }
            }
            Kind::SetL { left, number } => {
                self.messages.remove(place);
                let node = &mut self.nodes[p as usize];
                if node.status == Status::Out {
                    Ok("dropped")
                } else if number > node.lseq {
                    node.left = Some(left);
                    node.lseq = number;
                    Ok("left-set")
                } else {
                    Ok("left-old")
                }
            }
        }
    }

    fn is_inserted(&self, u: u8) -> bool {
        let acknowledged = || self.messages.iter().any(|m| m.to == u && matches!(m.kind, Kind::SetRAck(_)));
        match self.nodes[u as usize].status {
            Status::Out => false,
            Status::Ins => acknowledged(),
            Status::In => true,
            Status::Del => !acknowledged(),
        }
    }

    fn owner(&self, start: u8, serial: u32) -> Result<(u8, usize), No> {
        if !self.is_inserted(start) {
            return Err(No(30));
        }
        let mut u = start;
        for hops in 0..self.nodes.len() {
            let node = &self.nodes[u as usize];
            let Some(right) = node.right else { break };
            if within(node.key, self.nodes[right as usize].key, serial) {
                return Ok((u, hops));
            }
            u = right;
        }
        Err(No(31))
    }

    fn drain(&mut self, budget: u16) -> u16 {
        let mut made = 0;
        while (budget == 0 || made < budget) && !self.messages.is_empty() {
            let mut place = 0;
            while self.deliver(place).is_err() {
                place += 1;
            }
            made += 1;
        }
        made
    }
}

fn packed(b: &[u8]) -> Result<u32, No> {
    let mut value = 0;
    for &byte in b {
        if byte >> 4 > 9 || byte & 15 > 9 {
            return Err(No(3));
        }
        value = value * 100 + (byte >> 4) as u32 * 10 + (byte & 15) as u32;
    }
    Ok(value)
}

fn binary(b: &[u8]) -> Result<u32, No> {
    let value = u32::from_le_bytes([b[0], b[1], b[2], b[3]]);
    if value > SERIAL_LIMIT {
        return Err(No(4));
    }
    Ok(value)
}

fn fields(mark: &[u8]) -> Option<usize> {
    match mark {
        b"BC" | b"BN" => Some(4),
        b"CR" | b"LV" | b"DL" => Some(1),
        b"JN" => Some(3),
        b"OC" | b"ON" => Some(5),
        b"RD" => Some(2),
        b"PK" => Some(0),
        _ => None,
    }
}

/// How a program writes a line: what came of the record of an ordinal, or the last line.
pub trait Lines {
    fn bench(&mut self, ordinal: u32, number: usize, key: u32) -> io::Result<()>;
    fn owner(&mut self, ordinal: u32, number: u8, hops: usize) -> io::Result<()>;
    fn ran(&mut self, ordinal: u32, made: u16, left: usize) -> io::Result<()>;
    fn word(&mut self, ordinal: u32, word: &str) -> io::Result<()>;
    fn no(&mut self, ordinal: u32, number: u8) -> io::Result<()>;
    fn end(&mut self, waiting: usize, posted: u32) -> io::Result<()>;
}

#[inline]
fn record(network: &mut Network, mark: &[u8], f: &[u8], ordinal: u32, lines: &mut impl Lines) -> io::Result<Result<(), No>> {
    let word = match mark {
        b"BC" | b"BN" => {
            let key = if mark == b"BC" { packed(f) } else { binary(f) };
            return Ok(match key.and_then(|key| network.declare(key).map(|n| (n, key))) {
                Ok((n, key)) => Ok(lines.bench(ordinal, n, key)?),
                Err(no) => Err(no),
            });
        }
        b"OC" | b"ON" => {
            let start = f[0];
            let serial = network.declared(start).and_then(|_| if mark == b"OC" { packed(&f[1..]) } else { binary(&f[1..]) });
            return Ok(match serial.and_then(|serial| network.owner(start, serial)) {
                Ok((n, hops)) => Ok(lines.owner(ordinal, n, hops)?),
                Err(no) => Err(no),
            });
        }
        b"RD" => {
            let made = network.drain(u16::from_le_bytes([f[0], f[1]]));
            lines.ran(ordinal, made, network.messages.len())?;
            return Ok(Ok(()));
        }
        b"PK" => {
            lines.ran(ordinal, 0, network.messages.len())?;
            return Ok(Ok(()));
        }
        b"CR" => network.create(f[0]),
        b"JN" => network.join(f[0], f[1], f[2]),
        b"LV" => network.leave(f[0]),
        _ => network.deliver(f[0] as usize),
    };
    Ok(match word {
        Ok(word) => Ok(lines.word(ordinal, word)?),
        Err(no) => Err(no),
    })
}

/// The script on standard input, and one byte more than a script may have where it is longer.
pub fn script() -> io::Result<Vec<u8>> {
    let mut script = Vec::new();
    io::stdin().take(SIZE_LIMIT as u64 + 1).read_to_end(&mut script)?;
    Ok(script)
}

/// All lines but the first. This and `record` are inlined, so that a program's lines are written
/// where its records are read, as if it stood in one file; else each record takes some fifteen
/// instructions more.
#[inline]
pub fn run(mut script: &[u8], lines: &mut impl Lines) -> io::Result<()> {
    let mut network = Network::new();
    if script.len() > SIZE_LIMIT {
        lines.no(0, 7)?;
        script = &[];
    }
    let mut at = 0;
    let mut ordinal = 0;
    while at < script.len() {
        ordinal += 1;
        let Some(mark) = script.get(at..at + 2) else {
            lines.no(ordinal, 2)?;
            break;
        };
        let Some(size) = fields(mark) else {
            lines.no(ordinal, 1)?;
            break;
        };
        let Some(f) = script.get(at + 2..at + 2 + size) else {
            lines.no(ordinal, 2)?;
            break;
        };
        if let Err(No(number)) = record(&mut network, mark, f, ordinal, lines)? {
            lines.no(ordinal, number)?;
        }
        at += 2 + size;
    }
    lines.end(network.messages.len(), network.posted)
}
