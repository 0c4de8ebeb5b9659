//! The library, which another program calls for us: `serve.c`, the server. It is compiled for the library's machine,
//! which need not be this one, and speaks over pipes. Its head has the protocol.

use std::ffi::OsString;
use std::io::{self, BufReader, ErrorKind, Read, Write};
use std::process::{Child, ChildStdin, ChildStdout, Command, Stdio};
use std::thread;

use crate::call::{Call, Left};
use crate::rng::Rng;
use crate::table::{Entry, Kind, Table, PLACE};

/// A server that runs.
pub struct Library {
    server: Child,
    requests: Option<ChildStdin>,
    responses: BufReader<ChildStdout>,
    pub table: Table,
}

/// What the library left, or what it did that no call may do.
pub type Made = Result<Left, String>;

/// Memory for a call: it is lent `len` octets of the image, from `offset` on. The octets around them are its fence.
struct Buffer {
    image: Vec<u8>,
    offset: usize,
    len: usize,
}

/// The longest fence. It is good for the alignment of every type.
const FENCE: usize = 16;

impl Library {
    /// Starts the server by a command and its words, and asks it for its table.
    pub fn start(command: &OsString, words: &[OsString], known: &[&'static str]) -> Result<Library, String> {
        let started = Command::new(command).args(words).stdin(Stdio::piped()).stdout(Stdio::piped()).spawn();
        let mut server = started.map_err(|error| format!("the server {command:?} cannot be started: {error}"))?;
        let mut requests = server.stdin.take().ok_or("the server has no pipe")?;
        let mut responses = BufReader::with_capacity(1 << 16, server.stdout.take().ok_or("the server has no pipe")?);
        let asked = requests.write_all(&[0; 4]).and_then(|()| response(&mut responses));
        let text = asked.map_err(|error| format!("the server gives no table: {error}"))?;
        let table = Table::read(&String::from_utf8_lossy(&text), known)?;
        Ok(Library { server, requests: Some(requests), responses, table })
    }

    /// Has calls made, one after the other. The server answers while it is still being asked, so that no side waits
    /// for the other for good.
    pub fn make(&mut self, calls: &[Call], rng: &mut Rng) -> Result<Vec<Made>, String> {
        let entries: Vec<(usize, &Entry)> =
            calls.iter().map(|call| self.table.place(call.name)).map(|place| (place, &self.table.0[place])).collect();
        let lent: Vec<Vec<Buffer>> =
            calls.iter().zip(&entries).map(|(call, (_, entry))| lend(call, entry, rng)).collect();
        let mut octets = Vec::new();
        for ((call, (place, _)), lent) in calls.iter().zip(&entries).zip(&lent) {
            encode(*place, call, lent, &mut octets);
        }
        let Library { requests, responses, .. } = self;
        let made: io::Result<Vec<Made>> = thread::scope(|scope| {
            // If the requests cannot be written the server has ended, and no response comes.
            scope.spawn(move || requests.as_mut().map(|requests| requests.write_all(&octets)));
            lent.iter().map(|lent| Ok(left(&response(responses)?, lent))).collect()
        });
        made.map_err(|error| self.fault(error))
    }

    /// Ends the server by ending its input. It has nothing more to say, and leaves with status 0.
    pub fn end(mut self) -> Result<(), String> {
        drop(self.requests.take());
        match (io::copy(&mut self.responses, &mut io::sink()), self.server.wait()) {
            (Ok(0), Ok(status)) if status.success() => Ok(()),
            (Ok(0), Ok(status)) => Err(format!("the server ended with {status}")),
            _ => Err("the server does not end as it should".into()),
        }
    }

    /// What is said of a response that cannot be read. The server is ended.
    fn fault(&mut self, error: io::Error) -> String {
        drop(self.requests.take());
        if error.kind() != ErrorKind::UnexpectedEof {
            let _ = self.server.kill();
        }
        match self.server.wait() {
            Ok(status) => format!("the server gives no good response ({error}); it ended with {status}"),
            Err(_) => format!("the server gives no good response: {error}"),
        }
    }
}

/// Octets of a call with fences of any length. Out-parameters are aligned. One in four of those shown has no fence
/// behind: there the image ends, and a memory checker sees a call that reads on.
fn lend(call: &Call, entry: &Entry, rng: &mut Rng) -> Vec<Buffer> {
    let kinds = entry.buffers().map(|parameter| parameter.kind);
    let lend = |(octets, kind): (&Vec<u8>, Kind)| {
        let (offset, after) = match kind {
            Kind::Out(octets) => (FENCE - octets % FENCE, FENCE),
            Kind::Place => (FENCE - PLACE, FENCE),
            Kind::Shown => (rng.between(0, FENCE), rng.pick(&[0, FENCE, FENCE, FENCE])),
            _ => (rng.between(1, FENCE), FENCE),
        };
        let image = [&rng.octets(offset), octets, &rng.octets(after)[..]].concat();
        Buffer { image, offset, len: octets.len() }
    };
    call.buffers.iter().zip(kinds).map(lend).collect()
}

/// Adds a request to octets.
fn encode(place: usize, call: &Call, lent: &[Buffer], octets: &mut Vec<u8>) {
    let start = octets.len();
    octets.extend([0; 4]);
    octets.extend([place as u8, call.scalars.len() as u8]);
    call.scalars.iter().for_each(|scalar| octets.extend(scalar.to_le_bytes()));
    octets.push(lent.len() as u8);
    for Buffer { image, offset, len } in lent {
        [image.len(), *offset, *len].iter().for_each(|number| octets.extend((*number as u32).to_le_bytes()));
        octets.extend(image);
    }
    let length = (octets.len() - start - 4) as u32;
    octets[start..start + 4].copy_from_slice(&length.to_le_bytes());
}

/// The octets of the next response.
fn response(responses: &mut impl Read) -> io::Result<Vec<u8>> {
    let mut length = [0; 4];
    responses.read_exact(&mut length)?;
    let mut octets = vec![0; u32::from_le_bytes(length) as usize];
    responses.read_exact(&mut octets)?;
    Ok(octets)
}

/// What a call left in what it was lent, unless it touched a fence.
fn left(response: &[u8], lent: &[Buffer]) -> Made {
    let length: usize = lent.iter().map(|buffer| buffer.image.len()).sum();
    let Some((&answer, mut rest)) = response.split_first().filter(|(_, images)| images.len() == length) else {
        return Err("a response of another length".into());
    };
    let mut buffers = Vec::with_capacity(lent.len());
    for (place, Buffer { image, offset, len }) in lent.iter().enumerate() {
        let (after, others) = rest.split_at(image.len());
        let end = offset + len;
        if after[..*offset] != image[..*offset] || after[end..] != image[end..] {
            return Err(format!("answer {answer}, and octets around buffer {place} are touched"));
        }
        buffers.push(after[*offset..end].to_vec());
        rest = others;
    }
    Ok(Left { answer, buffers })
}

#[cfg(test)]
mod tests {
    use super::*;

    /// A change to any octet of a fence is noticed, and none where none was made; the lent octets may change.
    #[test]
    fn fences_are_noticed() {
        let image: Vec<u8> = (1..=20).collect();
        let lent = [Buffer { image: image.clone(), offset: 4, len: 9 }];
        let mut response = [&[7], &image[..]].concat();
        for at in 0..image.len() {
            response[1 + at] ^= 1;
            assert_eq!(left(&response, &lent).is_ok(), (4..13).contains(&at));
            response[1 + at] ^= 1;
        }
        assert_eq!(left(&response, &lent), Ok(Left { answer: 7, buffers: vec![image[4..13].to_vec()] }));
        assert!(left(&response[1..], &lent).is_err());
    }
}
