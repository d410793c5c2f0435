//! Requests to the host half: one call each, with any arguments and any room
//! (the README has the format).

use crate::answer::Answer;
use crate::compact::digest;
use crate::host::{build, gather};

/// Bytes before the data of a request.
pub const HEAD_BYTES: usize = 24;
/// A request with more bytes than this in its buffer or its data is not run.
pub const MOST_BUFFER_BYTES: usize = 1 << 20;
/// What every byte of the buffer holds before the call.
pub const FILL: u8 = 0xA5;

/// What a request calls.
#[derive(Clone, Copy, PartialEq, Eq, Debug)]
pub enum Call {
    Build,
    Gather,
}

/// One call with everything it is given. A gathering uses the first number, the
/// room and the data alone.
#[derive(Clone, PartialEq, Eq, Debug)]
pub struct Request {
    pub call: Call,
    /// The part to build for, or the number of wires to gather from.
    pub part_or_wires: u8,
    pub opcode: u8,
    pub mode: u8,
    pub configuration2: u8,
    pub address: u32,
    /// Bytes to read.
    pub number: u32,
    /// Length of the buffer lent.
    pub room: usize,
    /// Bytes to write, or output samples.
    pub data: Vec<u8>,
}

impl Request {
    pub fn to_bytes(&self) -> Vec<u8> {
        let mut bytes = vec![
            match self.call {
                Call::Build => 1,
                Call::Gather => 2,
            },
            self.part_or_wires,
            self.opcode,
            self.mode,
            self.configuration2,
            0,
            0,
            0,
        ];
        bytes.extend(self.address.to_le_bytes());
        bytes.extend(self.number.to_le_bytes());
        bytes.extend((self.room as u32).to_le_bytes());
        bytes.extend((self.data.len() as u32).to_le_bytes());
        bytes.extend(&self.data);
        bytes
    }

    /// Takes the next request off a file, or nothing where the file is cut, names
    /// no known call, or has a buffer or data too long.
    pub fn take(file: &mut &[u8]) -> Option<Request> {
        let (head, left) = file.split_first_chunk::<HEAD_BYTES>()?;
        let number = |at: usize| -> u32 {
            u32::from_le_bytes([head[at], head[at + 1], head[at + 2], head[at + 3]])
        };
        let length = |at: usize| {
            usize::try_from(number(at))
                .ok()
                .filter(|&bytes| bytes <= MOST_BUFFER_BYTES)
        };
        let data = left.get(..length(20)?)?;
        let request = Request {
            call: match head[0] {
                1 => Call::Build,
                2 => Call::Gather,
                _ => return None,
            },
            part_or_wires: head[1],
            opcode: head[2],
            mode: head[3],
            configuration2: head[4],
            address: number(8),
            number: number(12),
            room: length(16)?,
            data: data.to_vec(),
        };
        *file = &left[data.len()..];
        Some(request)
    }

    /// Makes the call and tells everything that can be seen afterwards.
    pub fn run(&self) -> Outcome {
        let mut buffer = vec![FILL; self.room];
        let (answer, told) = match self.call {
            Call::Build => build(
                u32::from(self.part_or_wires),
                u32::from(self.opcode),
                u32::from(self.mode),
                self.address,
                u32::from(self.configuration2),
                &self.data,
                self.number,
                &mut buffer,
            ),
            Call::Gather => gather(u32::from(self.part_or_wires), &self.data, &mut buffer),
        };
        Outcome {
            answer,
            told,
            buffer,
        }
    }
}

/// All that a call leaves.
pub struct Outcome {
    pub answer: Answer,
    /// Samples of a build, bytes of a gathering.
    pub told: u32,
    pub buffer: Vec<u8>,
}

/// Prints a whole request file through `write`, line by line.
pub fn host(
    file: &[u8],
    write: &mut dyn FnMut(&str) -> std::io::Result<()>,
) -> std::io::Result<()> {
    let mut left = file;
    let mut number = 0;
    while !left.is_empty() {
        let Some(request) = Request::take(&mut left) else {
            return write("cut\n");
        };
        number += 1;
        let outcome = request.run();
        write(&format!(
            "{number} {} {} {:08X}\n",
            outcome.answer,
            outcome.told,
            digest(&outcome.buffer),
        ))?;
    }
    Ok(())
}

/// The same as one piece of text.
pub fn host_text(file: &[u8]) -> String {
    let mut text = String::new();
    // Adding to a string cannot fail.
    let _ = host(file, &mut |line| {
        text += line;
        Ok(())
    });
    text
}
