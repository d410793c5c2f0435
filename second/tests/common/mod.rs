//! A chip on a bench for the tests. Samples are laid out here bit by bit and not
//! by the library, so that the two check each other.
#![allow(dead_code)]

use second::answer::{Answer, Class, Counts};
use second::device::{fresh, power_cycle, transact, Record};
use second::parts::find;

pub const M: u8 = 1;
pub const P: u8 = 2;
pub const M32: u8 = 3;
/// The parts with a latch, an area and protection.
pub const MRAMS: [u8; 2] = [M, M32];

/// The samples of some bytes on so many wires.
pub fn on(wires: u8, bytes: &[u8]) -> Vec<u8> {
    let mut samples = Vec::new();
    for byte in bytes {
        let bits: Vec<u8> = (0..8).rev().map(|bit| byte >> bit & 1).collect();
        match wires {
            1 => samples.extend(&bits),
            2 => bits.chunks(2).for_each(|b| samples.push(b[0] * 2 + b[1])),
            4 => bits
                .chunks(4)
                .for_each(|b| samples.push(b[0] * 8 + b[1] * 4 + b[2] * 2 + b[3])),
            _ => panic!("no such number of wires"),
        }
    }
    samples
}

/// The three bytes of an address.
pub fn at(address: u32) -> [u8; 3] {
    [(address >> 16) as u8, (address >> 8) as u8, address as u8]
}

/// What the device puts out for some bytes on so many wires.
pub fn out(wires: u8, bytes: &[u8]) -> Vec<u8> {
    on(wires, bytes)
        .iter()
        .map(|&levels| match wires {
            1 => 0x20 + 2 * levels,
            2 => 0x30 + levels,
            _ => 0xF0 + levels,
        })
        .collect()
}

/// The five counts in the paper's order.
pub fn five(command: u32, address: u32, wait: u32, data: u32, rest: u32) -> Counts {
    Counts {
        command,
        address,
        wait,
        data,
        rest,
    }
}

pub fn join(pieces: &[&[u8]]) -> Vec<u8> {
    pieces.concat()
}

pub struct Bench {
    pub record: Record,
    pub memory: Vec<u8>,
    pub area: Vec<u8>,
    /// Output of the last transaction, with three spare bytes at the end.
    pub output: Vec<u8>,
    /// Answer of the last transaction.
    pub answer: Answer,
}

impl Bench {
    pub fn new(part: u8, n: u8) -> Bench {
        let (identity, unique, area_bytes) = match part {
            M | M32 => (
                [0xE6, 0x01, 0x15, 0x01, 0, 0, 0, 0],
                [0x81, 0x72, 0x63, 0x54, 0x45, 0x36, 0x27, 0x18],
                if part == M { 256 } else { 512 },
            ),
            P => ([0x0D, 0x5D, 0x52, 0x33, 0x44, 0x55, 0x66, 0x77], [0; 8], 0),
            _ => panic!("no such part"),
        };
        let row = find(part).expect("a part of the table");
        Bench {
            record: fresh(row, n, identity, unique),
            memory: vec![0; 1 << n],
            area: vec![0; area_bytes],
            output: Vec::new(),
            answer: Answer::Done,
        }
    }

    pub fn m() -> Bench {
        Bench::new(M, 10)
    }

    pub fn p() -> Bench {
        Bench::new(P, 10)
    }

    pub fn m32() -> Bench {
        Bench::new(M32, 10)
    }

    /// Fills memory and area so that each byte tells its place.
    pub fn marked(mut self) -> Bench {
        for (place, byte) in self.memory.iter_mut().enumerate() {
            *byte = (place * 7 + place / 256) as u8;
        }
        for (place, byte) in self.area.iter_mut().enumerate() {
            *byte = (place * 3 + place / 256 + 1) as u8;
        }
        self
    }

    pub fn full(&mut self, samples: &[u8]) -> (u8, Counts) {
        self.output = vec![0xA5; samples.len() + 3];
        let (answer, counts) = transact(
            &mut self.record,
            &mut self.memory,
            &mut self.area,
            samples,
            &mut self.output,
        );
        assert_eq!(self.output[samples.len()..], [0xA5; 3], "spare output");
        let all_clocks = counts.command + counts.address + counts.wait + counts.data + counts.rest;
        let undriven = self.output[..samples.len()].iter().all(|&byte| byte == 0);
        match answer.class() {
            Class::Done => assert_eq!(all_clocks as usize, samples.len()),
            Class::Declined => {
                assert_eq!(all_clocks as usize, samples.len());
                assert!(undriven);
            }
            Class::Refused => {
                assert_eq!(counts, five(0, 0, 0, 0, 0));
                assert!(self.output.iter().all(|&byte| byte == 0xA5));
            }
        }
        self.answer = answer;
        (answer.number(), counts)
    }

    pub fn send(&mut self, samples: &[u8]) -> u8 {
        self.full(samples).0
    }

    /// Bytes on the wires of the mode in force, all phases alike.
    pub fn say(&mut self, bytes: &[u8]) -> u8 {
        let samples = on(self.record.mode, bytes);
        self.send(&samples)
    }

    /// The same with some more clocks at the end.
    pub fn say_and(&mut self, bytes: &[u8], clocks: usize) -> u8 {
        let mut samples = on(self.record.mode, bytes);
        samples.extend(vec![0; clocks]);
        self.send(&samples)
    }

    /// Opcode, address, data on the wires of the mode in force.
    pub fn write(&mut self, opcode: u8, address: u32, data: &[u8]) -> u8 {
        self.say(&join(&[&[opcode], &at(address), data]))
    }

    /// A register write behind a write enable.
    pub fn set(&mut self, opcode: u8, values: &[u8]) -> u8 {
        assert_eq!(self.say(&[0x06]), 0);
        self.say(&join(&[&[opcode], values]))
    }

    /// The driven output bytes of the last transaction.
    pub fn driven(&self) -> Vec<u8> {
        let clocks = self.output.len() - 3;
        self.output[..clocks]
            .iter()
            .copied()
            .filter(|&byte| byte != 0)
            .collect()
    }

    pub fn cycle(&mut self) -> u8 {
        let (answer, counts) = power_cycle(&mut self.record, &mut self.memory, &mut self.area);
        assert_eq!(counts, five(0, 0, 0, 0, 0));
        answer.number()
    }
}
