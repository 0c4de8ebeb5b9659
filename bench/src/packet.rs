//! Packets written (document 01, "Writing packets"), in plain Rust.
use crate::payload::in_range;
use crate::refusal::Refusal;
use crate::table::size;

/// Which packet of a group is to be written, and how.
pub struct Wanted {
    pub form: u8,
    pub max_l: u8,
    pub max_b: u8,
    pub l: u8,
    pub n: u8,
    pub b: u8,
    pub d: u8,
}

/// Writes packet n of the group whose frames the entries are, and gives the octets written.
#[inline(never)] // called as a library's functions are
pub fn write(wanted: &Wanted, entries: &[u8], out: &mut [u8]) -> Result<usize, Refusal> {
    judge(wanted)?;
    let (picked, need) = pick(wanted, entries)?;
    let b = wanted.b as usize;
    if out.len() < 1 + b + need {
        return Err(15.into());
    }
    let (head, rest) = out.split_at_mut(1 + b);
    let mut to = 0;
    head[0] = wanted.l * 8 + wanted.n;
    for (toc, frame) in head[1..].iter_mut().zip(&picked[..b]) {
        *toc = 128 + wanted.d * 64 + frame[0] % 64;
        rest[to..to + frame.len() - 1].copy_from_slice(&frame[1..]);
        to += frame.len() - 1;
    }
    head[b] -= 128;
    Ok(1 + b + need)
}

fn judge(wanted: &Wanted) -> Result<(), u8> {
    if wanted.form != 1 || !in_range(wanted.max_l, wanted.max_b) || wanted.d > 1 {
        return Err(21);
    }
    if wanted.n > wanted.l {
        return Err(2);
    }
    if wanted.l > wanted.max_l {
        return Err(3);
    }
    if !(1..=wanted.max_b).contains(&wanted.b) {
        return Err(6);
    }
    Ok(())
}

/// The one walk over all entries: the packet's own, each with its body, and the octets of their bodies.
fn pick<'a>(wanted: &Wanted, entries: &'a [u8]) -> Result<([&'a [u8]; 10], usize), Refusal> {
    let (step, b) = (wanted.l as usize + 1, wanted.b as usize);
    let (mut picked, mut filled, mut need): ([&[u8]; 10], _, _) = ([&[]; 10], 0, 0);
    let (mut at, mut count, mut next) = (0, 0, wanted.n as usize);
    while at < entries.len() {
        let kind = entries[at] % 64;
        let octets = size(kind).ok_or_else(|| Refusal::at(5, at))?;
        let end = at + 1 + octets;
        let frame = entries.get(at..end).ok_or_else(|| Refusal::at(19, at))?;
        if kind == 14 || (kind == 4 && frame[octets] % 32 != 0) {
            return Err(17.into());
        }
        if count == next && filled < b {
            picked[filled] = frame;
            filled += 1;
            need += octets;
            next += step;
        }
        count += 1;
        at = end;
    }
    if count == step * b {
        Ok((picked, need))
    } else {
        Err(17.into())
    }
}
