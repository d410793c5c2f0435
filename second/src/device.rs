//! The device half: one whole transaction, a power cycle, a fresh record
//! (document 01, from "Commands of part M" to "Answer numbers"). `chunks` has the
//! calls of a transaction that comes in pieces.

use crate::answer::{Answer, Counts};
use crate::doing::act;
use crate::facts::{reachable, Open};
use crate::judging::judge;
use crate::parts::{find, Family, Part};
use crate::reading::read;

/// The most clocks that one transaction may have.
pub const MOST_CLOCKS: usize = 65_535;

/// All that a chip remembers beside its memory and its area.
#[derive(Clone, Copy, PartialEq, Eq, Debug)]
pub struct Record {
    /// The part's number.
    pub part: u8,
    /// Memory holds 2^n bytes.
    pub n: u8,
    /// Bus mode: 1, 2 or 4 wires.
    pub mode: u8,
    /// MRAM: the write latch.
    pub latch: bool,
    /// The transaction before was a reset enable answered 0.
    pub armed: bool,
    /// MRAM: asleep.
    pub asleep: bool,
    /// PSRAM: the group is 32 bytes whatever MR0 says.
    pub toggle: bool,
    pub status: u8,
    pub area_protection: u8,
    /// Configurations 1 to 4 at places 0 to 3.
    pub configurations: [u8; 4],
    pub mr0: u8,
    /// As many bytes as the part has; the others are kept 0.
    pub identity: [u8; 8],
    pub unique: [u8; 8],
    pub serial: [u8; 8],
    /// The transaction that has come in part.
    pub open: Open,
}

impl Record {
    /// The MRAM's write mode, the low two bits of configuration 4.
    pub fn write_mode(&self) -> u8 {
        self.configurations[3] & 0x03
    }
}

/// A chip as it leaves the bench: everything at its first value, the two factory
/// numbers as given, serial number 0.
pub fn fresh(part: &Part, n: u8, identity: [u8; 8], unique: [u8; 8]) -> Record {
    Record {
        part: part.number,
        n,
        mode: 1,
        latch: false,
        armed: false,
        asleep: false,
        toggle: false,
        status: 0,
        area_protection: 0,
        configurations: part.fresh_configurations,
        mr0: part.fresh_mr0,
        identity,
        unique,
        serial: [0; 8],
        open: Open::default(),
    }
}

// ---- Checks 1 and 3, shared by all calls ----

/// The part of check 1 that does not look at clocks and output; what passes has a
/// part.
pub fn sized_part(record: &Record, memory: &[u8], area: &[u8]) -> Option<&'static Part> {
    find(record.part).filter(|part| {
        part.allows_n(record.n)
            && memory.len() == 1usize << record.n
            && area.len() == part.area_bytes
    })
}

/// A status value that may be written; bit 1 is free because it is dropped.
pub fn status_allowed(value: u8) -> bool {
    value & 0xC1 == 0
}

pub fn configurations_allowed(part: &Part, values: &[u8]) -> bool {
    let [first, second, third, fourth] = values else {
        return false;
    };
    *first == 0
        && second & 0xF0 == 0
        && third & 0x08 == 0
        && usize::from(third & 0x07) < part.wrap_lengths.len()
        && fourth & 0xFC == 0x04
        && fourth & 0x03 != 3
}

pub fn mr0_allowed(value: u8) -> bool {
    value & 0x9C == 0 && value & 0x03 != 3
}

/// Check 3: the registers, and the open transaction if they allow one at all.
pub fn state_fits(part: &Part, record: &Record) -> bool {
    registers_fit(part, record)
        && if record.open.flag {
            reachable(part, record)
        } else {
            record.open == Open::default()
        }
}

/// Check 3 without the open transaction. Bit 1 of the stored status is refused as
/// well: no write ever leaves it there, the latch is a field of its own.
pub fn registers_fit(part: &Part, record: &Record) -> bool {
    let family_fits = match part.family {
        Family::Mram => {
            status_allowed(record.status)
                && record.status & 0x02 == 0
                && configurations_allowed(part, &record.configurations)
                && record.mr0 == 0
                && !record.toggle
        }
        Family::Psram => {
            mr0_allowed(record.mr0)
                && record.status == 0
                && record.area_protection == 0
                && record.configurations == [0; 4]
                && record.serial == [0; 8]
                && record.unique == [0; 8]
                && !record.latch
                && !record.asleep
        }
    };
    let identity_past_its_end = &record.identity[part.identity_bytes..];
    family_fits
        && part.modes().contains(&record.mode)
        && identity_past_its_end.iter().all(|&byte| byte == 0)
}

// ---- Reset ----

/// What a reset does to the registers, and a power cycle too.
pub fn reset(part: &Part, record: &mut Record) {
    record.mode = 1;
    match part.family {
        Family::Mram => record.latch = false,
        Family::Psram => {
            record.mr0 = part.fresh_mr0;
            record.toggle = false;
        }
    }
}

/// A power cycle. The MRAM keeps memory, area, serial number and registers; the
/// PSRAM forgets its memory.
pub fn power_cycle(record: &mut Record, memory: &mut [u8], area: &mut [u8]) -> (Answer, Counts) {
    let Some(part) = sized_part(record, memory, area) else {
        return (Answer::Size, Counts::default());
    };
    if !state_fits(part, record) {
        return (Answer::State, Counts::default());
    }
    if record.open.flag {
        return (Answer::Turn, Counts::default());
    }
    reset(part, record);
    record.asleep = false;
    record.armed = false;
    match part.family {
        Family::Mram => {}
        Family::Psram => memory.fill(0),
    }
    (Answer::Done, Counts::default())
}

// ---- Transactions ----

/// One transaction: all clocks between select low and select high.
///
/// Answers 1 to 3 and 13 leave everything as it is, the output too. All others write
/// one output byte for each clock and keep the output past them.
pub fn transact(
    record: &mut Record,
    memory: &mut [u8],
    area: &mut [u8],
    samples: &[u8],
    output: &mut [u8],
) -> (Answer, Counts) {
    let clocks = samples.len();
    let sizes_fit = clocks <= MOST_CLOCKS && output.len() >= clocks;
    let part = sized_part(record, memory, area).filter(|_| sizes_fit);
    let Some(part) = part else {
        return (Answer::Size, Counts::default());
    };
    if samples.iter().any(|&sample| sample > 15) {
        return (Answer::Sample, Counts::default());
    }
    if !state_fits(part, record) {
        return (Answer::State, Counts::default());
    }
    if record.open.flag {
        return (Answer::Turn, Counts::default());
    }
    let reading = read(part, record, samples);
    let answer = judge(part, record, &reading);
    let output = &mut output[..clocks];
    act(part, record, memory, area, output, &reading, answer);
    (answer, reading.counts(answer))
}
