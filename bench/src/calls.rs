//! The work of ../calls.c, which goes through the library's C calls, in plain Rust; the arguments and what is written are the same.
mod capture;
mod input;
mod numbers;
mod packet;
mod payload;
mod refusal;
mod rows;
mod session;
mod table;

use std::time::Instant;

use rows::{Bench, Row, ROWS};

fn take_turn(row: &Row, bench: &mut Bench) {
    bench.written = 0;
    (row.turn)(bench, bench.turns);
    bench.turns += 1;
}

/// A turn whose whole output goes into the sum, with what stands behind it.
fn check_turn(row: &Row, bench: &mut Bench) {
    take_turn(row, bench);
    bench.add(bench.written as u64);
    for i in 0..bench.out.len().min(bench.written + 64) {
        bench.add(bench.out[i] as u64);
    }
    for i in 0..bench.session.len() {
        bench.add(bench.session[i] as u64);
    }
}

/// Some turns as they are; then a bit changed, the input cut, the room cut, spread over all of it.
fn check(row: &Row, bench: &mut Bench) {
    let (whole, lent) = (bench.len, bench.room);
    for _ in 0..20 {
        check_turn(row, bench);
    }
    for bit in (0..8 * whole).step_by((8 * whole / row.spoilt) | 1) {
        bench.input[bit / 8] ^= 1 << (bit % 8);
        check_turn(row, bench);
        bench.input[bit / 8] ^= 1 << (bit % 8);
    }
    for len in (0..whole).step_by(1 + whole / row.spoilt) {
        bench.len = len;
        check_turn(row, bench);
    }
    bench.len = whole;
    for room in (0..lent).step_by(1 + lent / row.spoilt) {
        bench.room = room;
        check_turn(row, bench);
    }
    bench.room = lent;
}

/// The row's turns, and how long they took.
fn timed(row: &Row, bench: &mut Bench) -> u64 {
    let mut count = 0;
    let from = Instant::now();
    while bench.turns < row.turns {
        take_turn(row, bench);
        let shown = (row.shown)(bench)[..8].try_into().expect("eight octets");
        bench.add(u64::from_le_bytes(shown));
        count += bench.written as u64;
    }
    eprintln!("{}", from.elapsed().as_nanos());
    count
}

fn main() {
    let arguments: Vec<String> = std::env::args().skip(1).collect();
    let name = arguments.first().map_or("", String::as_str);
    let row = ROWS.iter().find(|row| row.name == name);
    let row = row.expect("the name of a row");
    let mut bench = Bench::new();
    (row.make)(&mut bench);
    bench.len = bench.input.len();
    assert_eq!(bench.refused, 0);
    let count = if arguments.len() > 1 {
        check(row, &mut bench);
        bench.refused
    } else {
        timed(row, &mut bench)
    };
    check_turn(row, &mut bench);
    assert!(arguments.len() > 1 || bench.refused == 0);
    println!("{} {}", count, bench.sum);
}
