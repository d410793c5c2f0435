//! Doing: what an answer leaves in record, memory, area and output.

use crate::answer::Answer;
use crate::device::{reset, Record};
use crate::parts::{Family, Part, Register};
use crate::places::{burst, in_area, protected};
use crate::reading::Reading;
use crate::table::Data;
use crate::wires::{clocks_for_bits, drive};

/// Does what an answer other than 1 to 3 and 13 asks for; `output` has one byte for each
/// clock.
pub fn act(
    part: &Part,
    record: &mut Record,
    memory: &mut [u8],
    area: &mut [u8],
    output: &mut [u8],
    reading: &Reading,
    answer: Answer,
) {
    output.fill(0);
    // A reset enable alone arms; every other transaction disarms, done or declined.
    record.armed = answer == Answer::Done && reading.opcode == Some(0x66);
    let (Some(opcode), Some(command)) = (reading.opcode, reading.command) else {
        return;
    };
    let wires = command.rest_wires;
    let data_clocks = reading.clocks.data as usize;
    let address = reading.address.unwrap_or(0);
    let store = if in_area(part, opcode) { area } else { memory };
    match (answer, command.data) {
        (Answer::Done, Data::None) => obey(part, record, opcode),
        (Answer::Done, Data::ReadFixed(_) | Data::ReadMapped) => {
            let bytes = register_bytes(part, record, opcode, address);
            put_out(output, reading, &drive(&bytes, data_clocks, wires));
        }
        (Answer::Done, Data::ReadRunning) => {
            let begun_bytes = data_clocks.div_ceil(clocks_for_bits(8, wires));
            let burst = burst(part, record, opcode, address);
            let bytes: Vec<u8> = (0..begun_bytes)
                .map(|index| store[burst.place(index)])
                .collect();
            put_out(output, reading, &drive(&bytes, data_clocks, wires));
        }
        (Answer::Done, Data::WriteFixed(_)) => {
            store_register(part, record, opcode, &reading.data);
            // In every write mode (document 02, P3); the PSRAM's latch is never up.
            record.latch = false;
        }
        (Answer::Done, Data::WriteRunning) => {
            let burst = burst(part, record, opcode, address);
            for (index, &value) in reading.data.iter().enumerate() {
                let place = burst.place(index);
                if !protected(part, record, opcode, place) {
                    store[place] = value;
                }
            }
            end_burst(part, record);
        }
        (Answer::Protected, _) => end_burst(part, record),
        // Whatever else is declined changes the arming alone.
        _ => {}
    }
}

/// Puts what a read drives on its data clocks.
fn put_out(output: &mut [u8], reading: &Reading, driven: &[u8]) {
    let clocks = &reading.clocks;
    let first = (clocks.command + clocks.address + clocks.wait) as usize;
    output[first..first + driven.len()].copy_from_slice(driven);
}

/// A memory or augmented write, stored or all protected, drops the latch in write
/// mode 0.
fn end_burst(part: &Part, record: &mut Record) {
    if part.family == Family::Mram && record.write_mode() == 0 {
        record.latch = false;
    }
}

/// The bytes of a read whose size is fixed, or of a register that 65 names.
fn register_bytes(part: &Part, record: &Record, opcode: u8, address: u32) -> Vec<u8> {
    // Bit 1 of the status as it is read shows the latch.
    let status = record.status | u8::from(record.latch) << 1;
    let [first, second, third, fourth] = record.configurations;
    let identity = record.identity[..part.identity_bytes].to_vec();
    match (part.family, opcode) {
        (Family::Mram, 0x05) => vec![status],
        (Family::Mram, 0x14) => vec![record.area_protection],
        (Family::Mram, 0x35) => vec![first],
        (Family::Mram, 0x3F) => vec![second],
        (Family::Mram, 0x44) => vec![third],
        (Family::Mram, 0x45) => vec![fourth],
        (Family::Mram, 0x46) => record.configurations.to_vec(),
        (Family::Mram, 0x4C) => record.unique.to_vec(),
        (Family::Mram, 0xC3) => record.serial.to_vec(),
        (Family::Mram, 0x65) => match part.register_at(address) {
            Some((Register::Status, _)) => vec![status],
            Some((Register::Configuration(index), _)) => vec![record.configurations[index]],
            Some((Register::Identity, _)) => identity,
            Some((Register::Unique, _)) => record.unique.to_vec(),
            Some((Register::Serial, _)) => record.serial.to_vec(),
            None => Vec::new(),
        },
        (Family::Psram, 0xB5) => vec![record.mr0],
        (_, 0x9F) => identity,
        _ => Vec::new(),
    }
}

/// A register write that has passed every row.
pub fn store_register(part: &Part, record: &mut Record, opcode: u8, values: &[u8]) {
    match (part.family, opcode) {
        (Family::Mram, 0x01) => record.status = values[0] & !0x02,
        (Family::Mram, 0x1A) => record.area_protection = values[0],
        (Family::Mram, 0x87) => record.configurations.copy_from_slice(values),
        (Family::Mram, 0xC2) => record.serial.copy_from_slice(values),
        (Family::Psram, 0xB1) => record.mr0 = values[0],
        _ => {}
    }
}

/// A command without data that has passed every row.
fn obey(part: &Part, record: &mut Record, opcode: u8) {
    match (part.family, opcode) {
        (_, 0x99) => reset(part, record),
        (Family::Mram, 0x06) => record.latch = true,
        (Family::Mram, 0x04) => record.latch = false,
        (Family::Mram, 0x37) => record.mode = 2,
        (Family::Mram, 0x38) => record.mode = 4,
        (Family::Mram, 0xFF) => record.mode = 1,
        (Family::Mram, 0xB9) => record.asleep = true,
        (Family::Mram, 0xAB) => record.asleep = false,
        (Family::Psram, 0x35) => record.mode = 4,
        (Family::Psram, 0xF5) => record.mode = 1,
        (Family::Psram, 0xC0) => record.toggle = !record.toggle,
        // 00 does nothing, and the arming is no matter of one command.
        _ => {}
    }
}
