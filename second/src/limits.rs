//! Sizes and records at the limits of every part, which no tape can have: the list
//! of those that made probes have to reach, and how many were reached.

use std::collections::BTreeMap;

use crate::answer::Answer::{self, Address, Done, Size, State};
use crate::answer::Class;
use crate::device::{state_fits, Record, MOST_CLOCKS};
use crate::parts::{find, Family, Part, FIRST_FREE_NUMBER, M32, PARTS};
use crate::probe::{Call, Probe, Task};
use crate::reading::read;
use crate::rows::Row;
use crate::wires::clocks_for_bits;

/// The largest n of a memory that a made probe lends in full.
pub const MOST_MADE_N: u8 = M32.most_n;

/// A wanted size, number or code of a part's probe, right or not.
#[derive(Clone, Copy, PartialEq, Eq, PartialOrd, Ord, Debug)]
pub enum Limit {
    /// An area of so many bytes.
    Area(usize),
    /// This n, with the memory that goes with it as far as one is made.
    N(u8),
    /// A memory that has so many bytes more than 2^n.
    Memory(i64),
    /// A number that no part has, and all else as the part has it.
    NoPart(u8),
    /// This wrap code in the record.
    Code(u8),
    /// A burst in the largest memory there is: opcode, address and status.
    Large(u8, u32, u8),
}

/// Lengths of an area: none, and about that of each part.
const AREA_BYTES: [usize; 7] = [0, 255, 256, 257, 511, 512, 513];
/// About the least and the most of every part.
const ALL_N: [u8; 5] = [9, 10, 21, 22, 23];

/// Bursts in the largest memory: over the top, at its middle and past it, and over
/// the borders of a 64th and of a half, at the top and at the bottom.
const LARGE: [(u8, u32, u8); 10] = [
    (0x02, 0x3F_FFFF, 0x00),
    (0x03, 0x3F_FFFF, 0x00),
    (0x02, 0x20_0000, 0x00),
    (0x03, 0x20_0000, 0x00),
    (0x02, 0x40_0000, 0x00),
    (0x03, 0x40_0000, 0x00),
    (0x02, 0x3E_FFFF, 0x04),
    (0x02, 0x00_FFFF, 0x24),
    (0x02, 0x1F_FFFF, 0x18),
    (0x02, 0x1F_FFFF, 0x38),
];

impl Limit {
    /// All that probes of this part have to reach.
    pub fn list(part: &Part) -> Vec<Limit> {
        let mut list = Vec::new();
        list.extend(AREA_BYTES.map(Limit::Area));
        list.extend(ALL_N.map(Limit::N));
        list.extend([-1, 0, 1].map(Limit::Memory));
        list.extend([0, FIRST_FREE_NUMBER].map(Limit::NoPart));
        if part.family == Family::Mram {
            list.extend((0..8).map(Limit::Code));
        }
        if *part == M32 {
            let large = |(opcode, address, status)| Limit::Large(opcode, address, status);
            list.extend(LARGE.map(large));
        }
        list
    }

    /// Whether a probe for it has a memory of some megabytes, which takes its time.
    pub fn is_heavy(&self) -> bool {
        match *self {
            Limit::N(n) => (18..=MOST_MADE_N).contains(&n),
            Limit::Large(..) => true,
            _ => false,
        }
    }

    /// Whether this probe with this answer shows the limit of this part.
    fn shown_by(&self, part: &Part, record: &Record, probe: &Probe, answer: Answer) -> bool {
        let clocks = probe.samples.len();
        let clocks_fit = clocks <= MOST_CLOCKS && clocks <= probe.output_bytes;
        let looks = probe.task.call().is_some_and(Call::takes_samples);
        if looks && !clocks_fit {
            return false;
        }
        let is_part = record.part == part.number;
        let n_fits = part.allows_n(record.n);
        let whole_memory = 1usize.checked_shl(u32::from(record.n));
        let memory_fits = whole_memory == Some(probe.memory_bytes);
        let area_fits = probe.area_bytes == part.area_bytes;
        let all_fits = is_part && n_fits && memory_fits && area_fits;
        let refused = answer == Size;
        match *self {
            Limit::Area(bytes) => {
                is_part
                    && n_fits
                    && memory_fits
                    && probe.area_bytes == bytes
                    && refused != area_fits
            }
            Limit::N(n) => {
                let lent = memory_fits || n > MOST_MADE_N;
                is_part && area_fits && lent && record.n == n && refused != n_fits
            }
            Limit::Memory(more) => {
                is_part
                    && n_fits
                    && area_fits
                    && (1i64 << record.n) + more == probe.memory_bytes as i64
                    && refused != memory_fits
            }
            Limit::NoPart(number) => {
                record.part == number && n_fits && memory_fits && area_fits && refused
            }
            Limit::Code(code) => {
                // Nothing but the code may be at fault.
                let mut plain = *record;
                plain.configurations[2] &= 0xF8;
                let as_it_should = if usize::from(code) < part.wrap_lengths.len() {
                    answer.class() != Class::Refused
                } else {
                    answer == State
                };
                all_fits
                    && record.configurations[2] & 0x07 == code
                    && state_fits(part, &plain)
                    && as_it_should
            }
            Limit::Large(opcode, address, status) => {
                all_fits
                    && record.n == MOST_MADE_N
                    && record.status == status
                    && answer.class() != Class::Refused
                    && burst(part, record, probe) == Some((opcode, address))
                    && answer
                        == if address >> record.n == 0 {
                            Done
                        } else {
                            Address
                        }
            }
        }
    }

    /// What limits of this sort are.
    fn kind(&self) -> &'static str {
        match self {
            Limit::Area(_) => "bytes of the area",
            Limit::N(_) => "n",
            Limit::Memory(_) => "bytes of memory more than there should be",
            Limit::NoPart(_) => "all but the number, which is",
            Limit::Code(_) => "wrap code in a record",
            Limit::Large(..) => "opcode, address and status in the largest memory",
        }
    }

    fn word(&self) -> String {
        match *self {
            Limit::Area(bytes) => bytes.to_string(),
            Limit::Memory(more) => more.to_string(),
            Limit::N(number) | Limit::NoPart(number) | Limit::Code(number) => number.to_string(),
            Limit::Large(opcode, address, status) => {
                format!("{opcode:02X} {address:06X} {status:02X}")
            }
        }
    }
}

/// Opcode and address of a burst of two bytes or more that runs straight on, if the
/// probe is one.
fn burst(part: &Part, record: &Record, probe: &Probe) -> Option<(u8, u32)> {
    if probe.task != Task::Record(Call::Transact) {
        return None;
    }
    let reading = read(part, record, &probe.samples);
    let (opcode, address) = (reading.opcode?, reading.address?);
    let clocks_of_two = clocks_for_bits(16, reading.command?.rest_wires) as u32;
    let straight = opcode != 0x03 || record.configurations[2] & 0x10 == 0;
    (reading.clocks.data >= clocks_of_two && straight).then_some((opcode, address))
}

/// How often each of the list was reached, by part number.
#[derive(Default)]
pub struct Reached(BTreeMap<(u8, Limit), u64>);

impl Reached {
    /// Counts a call over a record.
    pub fn add(&mut self, probe: &Probe, answer: Answer) {
        let Some(record) = probe.record() else {
            return;
        };
        // A number that no part has goes with the part that all else is of.
        let parts = match find(record.part) {
            Some(part) => vec![part],
            None => PARTS.to_vec(),
        };
        for part in parts {
            for limit in Limit::list(part) {
                if limit.shown_by(part, &record, probe, answer) {
                    *self.0.entry((part.number, limit)).or_default() += 1;
                }
            }
        }
    }

    /// The counts of the list for each part.
    pub fn rows(&self) -> Vec<Row> {
        let mut rows = Vec::new();
        for part in PARTS {
            rows.extend(Limit::list(part).into_iter().map(|limit| Row {
                part,
                kind: String::from(limit.kind()),
                word: limit.word(),
                count: self.0.get(&(part.number, limit)).copied().unwrap_or(0),
            }));
        }
        rows
    }
}
