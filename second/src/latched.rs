//! The writes of the MRAM parts that find the latch up: the list of those that made
//! input has to reach, samples for one of them, and how many were reached.

use std::collections::BTreeMap;

use crate::answer::Answer::{self, Done, Latch, Long, Protected, Reserved, Short};
use crate::answer::Class;
use crate::compose::{compose, push_idle, Plan};
use crate::device::Record;
use crate::parts::{find, of_family, Family, Part};
use crate::places::{in_area, protected};
use crate::reading::read;
use crate::rng::Rng;
use crate::rows::{self, Row};
use crate::tape::{Entry, Step};
use crate::wires::clocks_for_bits;

const WRITE_MODES: [u8; 3] = [0, 1, 2];

/// Writes of status, area protection, configurations and serial number.
const REGISTER_WRITES: &[u8] = &[0x01, 0x1A, 0x87, 0xC2];

/// What is to be reached in each write mode: an answer to one of these opcodes.
/// Status and configurations alone have values that are not allowed.
const WANTED: [(&[u8], Answer); 11] = [
    (&[0x01], Done),
    (&[0x1A], Done),
    (&[0x87], Done),
    (&[0xC2], Done),
    (REGISTER_WRITES, Short),
    (&[0x01, 0x87], Reserved),
    (REGISTER_WRITES, Long),
    (&[0x02], Done),
    (&[0x02], Protected),
    (&[0x42], Done),
    (&[0x42], Protected),
];

/// A wanted write with the latch up.
#[derive(Clone, Copy, PartialEq, Eq, PartialOrd, Ord, Debug)]
pub struct Latched {
    /// The part's number.
    pub part: u8,
    /// The write mode before it.
    pub write_mode: u8,
    pub opcode: u8,
    pub answer: Answer,
}

impl Latched {
    /// The write that these samples are, if it is one and found the latch up.
    fn of(before: &Record, samples: &[u8], answer: Answer) -> Option<Latched> {
        // A refused record may be of no part or mode at all.
        if answer.class() == Class::Refused || !before.latch {
            return None;
        }
        let opcode = read(find(before.part)?, before, samples).opcode?;
        let wanted = |row: &(&[u8], Answer)| row.0.contains(&opcode) && row.1 == answer;
        WANTED.iter().any(wanted).then_some(Latched {
            part: before.part,
            write_mode: before.write_mode(),
            opcode,
            answer,
        })
    }

    pub fn is_register_write_done(&self) -> bool {
        REGISTER_WRITES.contains(&self.opcode) && self.answer == Done
    }

    /// Addresses at which a burst of up to four bytes gets this answer: memory and
    /// area are protected in whole 64ths.
    fn places(&self, part: &Part, record: &Record) -> Vec<usize> {
        let bytes = if in_area(part, self.opcode) {
            part.area_bytes
        } else {
            1 << record.n
        };
        let wanted = self.answer == Protected;
        (0..64)
            .map(|piece| piece * bytes / 64)
            .filter(|&place| protected(part, record, self.opcode, place) == wanted)
            .collect()
    }

    /// The opcode and the value of a register write without which no burst gets
    /// this answer from the record.
    pub fn needed_first(&self, rng: &mut Rng, part: &Part, record: &Record) -> Option<(u8, u8)> {
        let opcode = match self.opcode {
            0x02 => 0x01,
            0x42 => 0x1A,
            _ => return None,
        };
        if !self.places(part, record).is_empty() {
            return None;
        }
        // As a status and as an area protection it protects something, but not all.
        let value = (1 + rng.below(6)) << 2 | rng.below(2) << 5;
        Some((opcode, value as u8))
    }

    /// Samples that get this answer from a record with the latch up and with all
    /// that is needed first.
    pub fn samples(&self, rng: &mut Rng, part: &Part, record: &Record) -> Vec<u8> {
        let bytes = 1 + rng.below(4);
        let places = self.places(part, record);
        let place = places.get(rng.below(places.len()));
        let plan = Plan {
            // Still within the first four bytes.
            address: place.map(|place| (place + rng.below(5 - bytes)) as u32),
            bytes: Some(bytes),
            bad_value: self.answer == Reserved,
            ..Plan::sound()
        };
        let mut samples = compose(rng, part, record, self.opcode, &[], &plan);
        let command_clocks = clocks_for_bits(8, record.mode);
        match self.answer {
            Short => {
                let kept = rng.below(samples.len() - command_clocks);
                samples.truncate(command_clocks + kept);
            }
            Long => {
                let more = 1 + rng.below(9);
                push_idle(rng, &mut samples, more, true);
            }
            _ => {}
        }
        samples
    }
}

/// One row of what is to be reached, on one part and in one write mode.
#[derive(Clone, Copy)]
pub struct Goal {
    part: u8,
    write_mode: u8,
    opcodes: &'static [u8],
    answer: Answer,
}

impl Goal {
    /// All that is to be reached on this part; the PSRAM has no latch.
    pub fn list(part: &Part) -> Vec<Goal> {
        if part.family != Family::Mram {
            return Vec::new();
        }
        let in_mode = |write_mode: u8| {
            WANTED.map(|(opcodes, answer)| Goal {
                part: part.number,
                write_mode,
                opcodes,
                answer,
            })
        };
        WRITE_MODES.into_iter().flat_map(in_mode).collect()
    }

    /// A write of the row.
    pub fn draw(&self, rng: &mut Rng) -> Latched {
        Latched {
            part: self.part,
            write_mode: self.write_mode,
            opcode: rng.pick(self.opcodes),
            answer: self.answer,
        }
    }

    fn holds(&self, write: &Latched) -> bool {
        write.part == self.part
            && write.write_mode == self.write_mode
            && write.answer == self.answer
            && self.opcodes.contains(&write.opcode)
    }

    fn word(&self) -> String {
        match self.opcodes {
            [opcode] => format!("{opcode:02X} {}", self.answer),
            _ => format!("register {}", self.answer),
        }
    }
}

/// What one record of a tape is.
#[derive(Clone, Copy, Default)]
pub struct Seen {
    write: Option<Latched>,
    /// A status read whose byte was driven whole.
    status_shown: bool,
    /// A memory write that, by its answer, has a whole byte and an address that
    /// there is.
    memory_write: bool,
}

impl Seen {
    pub fn new(step: &Step) -> Seen {
        let (Entry::Transaction(samples), Some(before)) = (step.entry, &step.before) else {
            return Seen::default();
        };
        let opcode = read(step.chip.part, before, samples).opcode;
        let byte_clocks = clocks_for_bits(8, before.mode) as u32;
        Seen {
            write: Latched::of(before, samples, step.answer),
            status_shown: opcode == Some(0x05)
                && step.answer == Done
                && step.counts.data == byte_clocks,
            memory_write: opcode == Some(0x02) && matches!(step.answer, Done | Latch | Protected),
        }
    }
}

/// How often each of the list was reached.
#[derive(Default)]
pub struct Reached(BTreeMap<Latched, u64>);

impl Reached {
    fn add(&mut self, write: Latched) {
        *self.0.entry(write).or_default() += 1;
    }

    /// Counts a call on its own.
    pub fn add_call(&mut self, before: &Record, samples: &[u8], answer: Answer) {
        if let Some(write) = Latched::of(before, samples, answer) {
            self.add(write);
        }
    }

    /// Counts the writes of a tape that have a status read right behind them, which
    /// shows the latch, and if they are register writes answered 0 a memory write
    /// right behind that, which may need the latch.
    pub fn add_tape(&mut self, tape: &[Seen]) {
        for (at, seen) in tape.iter().enumerate() {
            let behind = |records: usize| tape.get(at + records).copied().unwrap_or_default();
            let Some(write) = seen.write.filter(|_| behind(1).status_shown) else {
                continue;
            };
            if !write.is_register_write_done() || behind(2).memory_write {
                self.add(write);
            }
        }
    }

    /// Adds the counts, a line for each part and write mode; tells whether none is
    /// missing.
    pub fn show(&self, title: &str, text: &mut String) -> bool {
        *text += &format!("{title}\n");
        let mut list = Vec::new();
        for part in of_family(Family::Mram) {
            list.extend(Goal::list(part).into_iter().map(|goal| Row {
                part,
                kind: format!("write mode {}", goal.write_mode),
                word: goal.word(),
                count: self.count(&goal),
            }));
        }
        rows::show(&list, text)
    }

    fn count(&self, goal: &Goal) -> u64 {
        let held = self.0.iter().filter(|(write, _)| goal.holds(write));
        held.map(|(_, count)| count).sum()
    }
}
