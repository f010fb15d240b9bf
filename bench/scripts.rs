//! Writes the scripts of the measurement into a folder, each as long as a script may be: a ring of
//! 32 nodes is made first, and then one kind of work is repeated until no more fits.
use std::{env, fs, io, path::Path};

const SIZE_LIMIT: usize = 65_536;
const NODES: u8 = 32;
const SPACING: u32 = 3_000_000;

/// A pseudo-random sequence of its own, so that the scripts are the same everywhere (xorshift).
struct Random(u64);

impl Random {
    fn below(&mut self, n: u32) -> u32 {
        self.0 ^= self.0 << 13;
        self.0 ^= self.0 >> 7;
        self.0 ^= self.0 << 17;
        ((self.0 >> 32) % n as u64) as u32
    }
}

fn packed(serial: u32) -> [u8; 4] {
    [1_000_000, 10_000, 100, 1].map(|unit| {
        let pair = (serial / unit % 100) as u8;
        pair / 10 << 4 | pair % 10
    })
}

fn declare(u: u8) -> Vec<u8> {
    [&b"BC"[..], &packed(u as u32 * SPACING)].concat()
}

fn join(u: u8, left: u8, right: u8) -> Vec<u8> {
    [&b"JN"[..], &[u, left, right]].concat()
}

fn leave(u: u8) -> Vec<u8> {
    [&b"LV"[..], &[u]].concat()
}

fn deliver(place: u8) -> Vec<u8> {
    [&b"DL"[..], &[place]].concat()
}

fn drain(budget: u16) -> Vec<u8> {
    [&b"RD"[..], &budget.to_le_bytes()].concat()
}

/// A question in the packed form, and every second one in the binary form.
fn owner(start: u8, serial: u32) -> Vec<u8> {
    if serial % 2 == 0 {
        [&b"OC"[..], &[start], &packed(serial)].concat()
    } else {
        [&b"ON"[..], &[start], &serial.to_le_bytes()].concat()
    }
}

/// The nodes of odd numbers, whose neighbours stay.
fn odd() -> impl Iterator<Item = u8> {
    (1..NODES).step_by(2)
}

fn rejoin(u: u8) -> Vec<u8> {
    join(u, u - 1, (u + 1) % NODES)
}

/// The deliveries of so many requests that are all granted, each at some place: a request posts two
/// messages, and they post none.
fn scattered(requests: usize, random: &mut Random) -> Vec<u8> {
    let mut waiting = vec![true; requests];
    let mut bytes = Vec::new();
    while !waiting.is_empty() {
        let place = random.below(waiting.len() as u32) as usize;
        if waiting.remove(place) {
            waiting.extend([false, false]);
        }
        bytes.extend(deliver(place as u8));
    }
    bytes
}

/// One request, and the three deliveries that it leads to, each at place 0.
fn one_by_one(request: Vec<u8>) -> Vec<u8> {
    [request, deliver(0), deliver(0), deliver(0)].concat()
}

fn ring() -> Vec<u8> {
    let mut bytes: Vec<u8> = (0..NODES).flat_map(declare).collect();
    bytes.extend([b'C', b'R', 0]);
    bytes.extend((1..NODES).flat_map(|u| one_by_one(join(u, u - 1, 0))));
    bytes
}

/// The ring, and then one round after the other while a whole one fits.
fn script(mut round: impl FnMut() -> Vec<u8>) -> Vec<u8> {
    let mut bytes = ring();
    loop {
        let more = round();
        if bytes.len() + more.len() > SIZE_LIMIT {
            return bytes;
        }
        bytes.extend(more);
    }
}

fn main() -> io::Result<()> {
    let folder = env::args().nth(1).expect("usage: scripts FOLDER");
    let save = |name: &str, bytes: Vec<u8>| fs::write(Path::new(&folder).join(name), bytes);
    let mut random = Random(0x9E37_79B9_7F4A_7C15);
    save("deliveries", script(|| {
        let leaves: Vec<u8> = odd().flat_map(leave).chain(scattered(16, &mut random)).collect();
        let joins: Vec<u8> = odd().flat_map(rejoin).chain(scattered(16, &mut random)).collect();
        [leaves, joins].concat()
    }))?;
    save("joins-and-leaves", script(|| {
        let u = 1 + 2 * random.below(16) as u8;
        [one_by_one(leave(u)), one_by_one(rejoin(u))].concat()
    }))?;
    save("owner-walks", script(|| owner(random.below(32) as u8, random.below(100_000_000))))?;
    save("drains", script(|| {
        let leaves = odd().flat_map(leave).chain(drain(u16::MAX));
        leaves.chain(odd().flat_map(rejoin)).chain(drain(u16::MAX)).collect()
    }))?;
    save("refusals", script(|| {
        let u = random.below(32) as u8;
        [declare(u), vec![b'C', b'R', u], rejoin(1), deliver(u), leave(NODES)].concat()
    }))
}
