//! Judging: the answer table of document 01 from row 4 on, over what was read and
//! the state before it.

use crate::answer::Answer;
use crate::device::{configurations_allowed, mr0_allowed, status_allowed, Record};
use crate::parts::{Family, Part};
use crate::places::{in_area, protected_places};
use crate::reading::Reading;
use crate::table::Data;

/// Whether a row of the table holds. It may take it that no row above does.
type Holds = fn(&Part, &Record, &Reading) -> bool;

/// The rows in the paper's order; the first that holds gives the answer.
const TABLE: [(Answer, Holds); 11] = [
    (Answer::Short, command_incomplete),
    (Answer::Asleep, asleep_and_not_wake),
    (Answer::Unknown, not_in_the_table),
    (Answer::Short, address_incomplete),
    (Answer::Address, address_not_allowed),
    (Answer::Short, write_not_full),
    (Answer::Long, clocks_past_the_end),
    (Answer::Unarmed, reset_not_armed),
    (Answer::Latch, latch_needed_and_down),
    (Answer::Reserved, value_not_allowed),
    (Answer::Protected, every_place_protected),
];

/// The answer to a transaction that has passed checks 1 to 3 and 13.
pub fn judge(part: &Part, record: &Record, reading: &Reading) -> Answer {
    TABLE
        .iter()
        .find(|(_, holds)| holds(part, record, reading))
        .map_or(Answer::Done, |&(answer, _)| answer)
}

fn command_incomplete(_: &Part, _: &Record, reading: &Reading) -> bool {
    reading.opcode.is_none()
}

fn asleep_and_not_wake(_: &Part, record: &Record, reading: &Reading) -> bool {
    record.asleep && reading.opcode != Some(0xAB)
}

fn not_in_the_table(_: &Part, _: &Record, reading: &Reading) -> bool {
    reading.command.is_none()
}

fn address_incomplete(_: &Part, _: &Record, reading: &Reading) -> bool {
    reading.command.is_some_and(|command| command.address) && reading.address.is_none()
}

fn address_not_allowed(part: &Part, record: &Record, reading: &Reading) -> bool {
    match (reading.opcode, reading.address) {
        (Some(opcode), Some(address)) => !allows_address(part, record, opcode, address),
        _ => false,
    }
}

/// Whether a command that has an address may have this one.
pub fn allows_address(part: &Part, record: &Record, opcode: u8, address: u32) -> bool {
    match part.family {
        Family::Mram if opcode == 0x65 => part.register_at(address).is_some(),
        Family::Mram if in_area(part, opcode) => (address as usize) < part.area_bytes,
        Family::Mram => address >> record.n == 0,
        Family::Psram if matches!(opcode, 0xB5 | 0xB1) => address & 0x0F == 0,
        Family::Psram => true,
    }
}

/// A read may end anywhere.
fn write_not_full(_: &Part, _: &Record, reading: &Reading) -> bool {
    match reading.phase() {
        Data::WriteFixed(bytes) => reading.data.len() < bytes,
        Data::WriteRunning => reading.data.is_empty(),
        Data::None | Data::ReadFixed(_) | Data::ReadMapped | Data::ReadRunning => false,
    }
}

/// Past a fixed-size read there may be clocks.
fn clocks_past_the_end(_: &Part, _: &Record, reading: &Reading) -> bool {
    matches!(reading.phase(), Data::None | Data::WriteFixed(_)) && reading.clocks.rest > 0
}

fn reset_not_armed(_: &Part, record: &Record, reading: &Reading) -> bool {
    reading.opcode == Some(0x99) && !record.armed
}

fn latch_needed_and_down(part: &Part, record: &Record, reading: &Reading) -> bool {
    let needed = match (part.family, reading.phase()) {
        (Family::Mram, Data::WriteFixed(_)) => true,
        (Family::Mram, Data::WriteRunning) => record.write_mode() != 1,
        // Reads need none, and the PSRAM has none.
        _ => false,
    };
    needed && !record.latch
}

fn value_not_allowed(part: &Part, _: &Record, reading: &Reading) -> bool {
    match (part.family, reading.opcode) {
        (Family::Mram, Some(0x01)) => !status_allowed(reading.data[0]),
        (Family::Mram, Some(0x87)) => !configurations_allowed(part, &reading.data),
        (Family::Psram, Some(0xB1)) => !mr0_allowed(reading.data[0]),
        // No other register has values that are not allowed.
        _ => false,
    }
}

fn every_place_protected(part: &Part, record: &Record, reading: &Reading) -> bool {
    let (Data::WriteRunning, Some(opcode), Some(address)) =
        (reading.phase(), reading.opcode, reading.address)
    else {
        return false;
    };
    let bytes = reading.data.len();
    protected_places(part, record, opcode, address, bytes) == bytes
}
