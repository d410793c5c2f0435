//! Where the bytes of a burst lie, and which of those places are protected.

use crate::device::Record;
use crate::parts::{Family, Part};

/// Whether a burst is in the augmented area; all others are in memory.
pub fn in_area(part: &Part, opcode: u8) -> bool {
    part.family == Family::Mram && matches!(opcode, 0x4B | 0x42)
}

/// Length in bytes of the group in force, or nothing where bursts run through the
/// whole memory. A record that passes check 3 has no code outside the row.
pub fn wrap_length(part: &Part, record: &Record) -> Option<usize> {
    let code = match part.family {
        Family::Mram if record.configurations[2] & 0x10 == 0 => return None,
        Family::Mram => record.configurations[2] & 0x07,
        Family::Psram if record.toggle => return Some(32),
        Family::Psram => record.mr0 >> 5 & 0x03,
    };
    part.wrap_lengths.get(usize::from(code)).copied()
}

/// The way of a burst: from its start round an aligned group of bytes.
pub struct Burst {
    first_of_group: usize,
    start_in_group: usize,
    group: usize,
}

impl Burst {
    /// The place of data byte number `index`.
    pub fn place(&self, index: usize) -> usize {
        self.first_of_group + (self.start_in_group + index) % self.group
    }
}

/// The way of a burst from this address on.
pub fn burst(part: &Part, record: &Record, opcode: u8, address: u32) -> Burst {
    let memory_bytes = 1usize << record.n;
    let in_force = || wrap_length(part, record).unwrap_or(memory_bytes);
    let address = address as usize;
    let (start, group) = match part.family {
        Family::Mram if in_area(part, opcode) => (address, part.area_bytes),
        // Of the MRAM's bursts only the memory read wraps in a group.
        Family::Mram if opcode == 0x03 => (address, in_force()),
        Family::Mram => (address, memory_bytes),
        // The PSRAM drops the address bits it has no memory for before it wraps.
        Family::Psram => (address % memory_bytes, in_force()),
    };
    Burst {
        first_of_group: start - start % group,
        start_in_group: start % group,
        group,
    }
}

/// How many bytes of memory the status protects, at the top or the bottom.
pub fn share_bytes(record: &Record) -> usize {
    let memory_bytes = 1usize << record.n;
    match record.status >> 2 & 7 {
        0 => 0,
        1 => memory_bytes / 64,
        2 => memory_bytes / 32,
        3 => memory_bytes / 16,
        4 => memory_bytes / 8,
        5 => memory_bytes / 4,
        6 => memory_bytes / 2,
        _ => memory_bytes,
    }
}

/// Whether a write skips this place. Memory is protected by the status alone, the
/// area by its sections alone, and the PSRAM not at all.
pub fn protected(part: &Part, record: &Record, opcode: u8, place: usize) -> bool {
    match part.family {
        Family::Mram if in_area(part, opcode) => {
            record.area_protection >> (place / part.section_bytes) & 1 == 1
        }
        Family::Mram if record.status & 0x20 == 0 => {
            place >= (1usize << record.n) - share_bytes(record)
        }
        Family::Mram => place < share_bytes(record),
        Family::Psram => false,
    }
}

/// How many of a burst's whole bytes have a protected place.
pub fn protected_places(
    part: &Part,
    record: &Record,
    opcode: u8,
    address: u32,
    bytes: usize,
) -> usize {
    let burst = burst(part, record, opcode, address);
    (0..bytes)
        .map(|index| burst.place(index))
        .filter(|&place| protected(part, record, opcode, place))
        .count()
}
