//! Long transactions and gatherings, over and over on the same buffers, so that
//! their time can be taken from outside (the README has the format).

use crate::answer::Answer;
use crate::compact::digest;
use crate::device::{fresh, transact, Record, MOST_CLOCKS};
use crate::host::{build, gather};
use crate::parts::{Family, Part, M, P};
use crate::wires::clocks_for_bits;

/// What is done over and over.
#[derive(Clone, Copy, PartialEq, Eq, Debug)]
pub enum What {
    Read,
    Write,
    Gather,
}

/// One run: so many calls of so many clocks each.
#[derive(Clone, Copy, PartialEq, Eq, Debug)]
pub struct Run {
    pub what: What,
    pub wires: u8,
    pub clocks: usize,
    pub repeats: u32,
    /// Memory holds 2^n bytes; a gathering has none.
    pub n: u8,
}

/// Byte number `index` of a memory or of what is written.
fn pattern(index: usize) -> u8 {
    (index % 251) as u8
}

impl Run {
    /// Whether there is such a run: a write needs some clocks behind its address.
    pub fn is_whole(&self) -> bool {
        matches!(self.wires, 1 | 2 | 4)
            && (64..=MOST_CLOCKS).contains(&self.clocks)
            && self.repeats <= 1_000_000
            && (self.what == What::Gather || self.command().0.allows_n(self.n))
    }

    /// Part and opcode. Memory is read on one wire and on four; on two wires only
    /// registers are read, and the clocks past eight bytes are rest.
    fn command(&self) -> (&'static Part, u8) {
        match (self.what, self.wires) {
            (What::Write, _) => (&M, 0x02),
            (_, 1) => (&M, 0x03),
            (_, 2) => (&M, 0x4C),
            _ => (&P, 0x0B),
        }
    }

    /// The samples. Behind what the host builds all wires stay low: a read goes on,
    /// and a write has its last byte cut.
    fn samples(&self) -> Vec<u8> {
        let (part, opcode) = self.command();
        let written: Vec<u8> = match self.what {
            What::Write => (0..self.clocks / clocks_for_bits(8, self.wires) - 4)
                .map(pattern)
                .collect(),
            _ => Vec::new(),
        };
        let mut samples = vec![0; self.clocks];
        let mode = u32::from(self.wires);
        build(
            u32::from(part.number),
            u32::from(opcode),
            mode,
            0x123,
            8,
            &written,
            1,
            &mut samples,
        );
        samples
    }

    /// A fresh chip in the mode of the burst.
    fn chip(&self) -> Record {
        let (part, _) = self.command();
        let unique = match part.family {
            Family::Mram => [1, 2, 3, 4, 5, 6, 7, 8],
            Family::Psram => [0; 8],
        };
        let mut record = fresh(part, self.n, [0; 8], unique);
        record.mode = self.wires;
        record
    }

    /// The line of the run.
    pub fn line(&self) -> String {
        let (done, left, memory) = match self.what {
            What::Gather => self.gatherings(),
            _ => self.transactions(),
        };
        let clocks = done * self.clocks as u64;
        format!(
            "{clocks} clocks {:08X} {:08X}\n",
            digest(&left),
            digest(&memory)
        )
    }

    fn transactions(&self) -> (u64, Vec<u8>, Vec<u8>) {
        let samples = self.samples();
        let chip = self.chip();
        let mut memory: Vec<u8> = (0..1usize << self.n).map(pattern).collect();
        let mut area = vec![0; self.command().0.area_bytes];
        let mut output = vec![0; self.clocks];
        let mut done = 0;
        for _ in 0..self.repeats {
            let mut record = chip;
            let (answer, _) = transact(&mut record, &mut memory, &mut area, &samples, &mut output);
            done += u64::from(answer == Answer::Done);
        }
        (done, output, memory)
    }

    fn gatherings(&self) -> (u64, Vec<u8>, Vec<u8>) {
        let driven: Vec<u8> = (0..self.clocks)
            .map(|index| match self.wires {
                1 => 0x20 + 2 * (pattern(index) % 2),
                2 => 0x30 + pattern(index) % 4,
                _ => 0xF0 + pattern(index) % 16,
            })
            .collect();
        let mut bytes = vec![0; self.clocks];
        let mut done = 0;
        for _ in 0..self.repeats {
            let (answer, _) = gather(u32::from(self.wires), &driven, &mut bytes);
            done += u64::from(answer == Answer::Done);
        }
        (done, bytes, Vec::new())
    }
}
