//! What crates/groups does, in plain Rust on plain arrays: two holdings of one group judged, joined and poured, once for each octet
//! of standard input. It writes the same octets, so that `bench/run` can hold the two to each other before it times them.
mod table;

use std::io::{self, Read, Write};

use table::size;

#[derive(Clone, Copy, PartialEq, Eq)]
struct Head {
    source: u32,
    sequence: u16,
    timestamp: u32,
    l: u8,
    b: u8,
}

#[derive(Clone)]
struct Holding {
    head: Head,
    held: [bool; 8],
    marks: [[u8; 10]; 8],
    room: [[[u8; 22]; 10]; 8],
}

fn frame_right(h: &Holding, n: usize, k: usize) -> bool {
    let kind = h.marks[n][k];
    match size(kind) {
        None => false,
        Some(octets) => {
            (k < h.head.b as usize || kind == 14) && h.room[n][k][octets..].iter().all(|&x| x == 0)
        }
    }
}

fn packet_right(h: &Holding, n: usize) -> bool {
    if h.held[n] {
        n <= h.head.l as usize && (0..10).all(|k| frame_right(h, n, k))
    } else {
        h.marks[n] == [14; 10] && h.room[n] == [[0; 22]; 10]
    }
}

fn holds(h: &Holding) -> bool {
    h.head.l <= 7
        && (1..=10).contains(&h.head.b)
        && (0..8).all(|n| packet_right(h, n))
        && h.held.iter().any(|&x| x)
}

fn join(a: &Holding, b: &Holding) -> Result<Holding, u8> {
    if !holds(a) || !holds(b) {
        return Err(21);
    }
    if a.head != b.head {
        return Err(20);
    }
    let differs =
        |n: usize| a.held[n] && b.held[n] && (a.marks[n] != b.marks[n] || a.room[n] != b.room[n]);
    if (0..8).any(differs) {
        return Err(14);
    }
    let mut all = a.clone();
    for n in (0..8).filter(|&n| b.held[n]) {
        all.held[n] = true;
        all.marks[n] = b.marks[n];
        all.room[n] = b.room[n];
    }
    Ok(all)
}

fn pour(h: &Holding, out: &mut [u8]) -> Result<usize, u8> {
    if !holds(h) {
        return Err(21);
    }
    let places =
        || (0..h.head.b as usize).flat_map(|k| (0..=h.head.l as usize).map(move |n| (n, k)));
    let octets = |n: usize, k: usize| size(h.marks[n][k]).unwrap_or(0);
    let total: usize = places().map(|(n, k)| 1 + octets(n, k)).sum();
    if out.len() < total {
        return Err(15);
    }
    let mut at = 0;
    for (n, k) in places() {
        let body = &h.room[n][k][..octets(n, k)];
        out[at] = h.marks[n][k];
        out[at + 1..at + 1 + body.len()].copy_from_slice(body);
        at += 1 + body.len();
    }
    Ok(total)
}

fn half(first: usize) -> Holding {
    let head = Head {
        source: 7,
        sequence: 65535,
        timestamp: 4_294_967_136,
        l: 5,
        b: 10,
    };
    let mut h = Holding {
        head,
        held: [false; 8],
        marks: [[14; 10]; 8],
        room: [[[0; 22]; 10]; 8],
    };
    for (n, x) in [(first, 0x11), (first + 2, 0x22), (first + 4, 0x33)] {
        h.held[n] = true;
        h.marks[n] = [4; 10];
        h.room[n] = [[x; 22]; 10];
    }
    h
}

fn main() -> io::Result<()> {
    let mut input = Vec::new();
    io::stdin().take(65_536).read_to_end(&mut input)?;
    let (mut a, b) = (half(0), half(1));
    let mut out = [0; 1840];
    let mut total = 0u64;
    for x in input {
        a.room[0][0][0] = x;
        let poured = join(&a, &b).and_then(|all| pour(&all, &mut out));
        total = total.wrapping_add(poured.unwrap_or(0) as u64);
    }
    write!(io::stdout(), "{total}")?;
    io::stdout().write_all(&out)
}
