//! Every refusal that a request has coming, not the first one alone. It shows
//! which requests have several faults, so that the order of the refusals is seen.
//! It is worked out apart from the host half itself.

use crate::answer::Answer::{self, Address, Long, Reserved, Sample, Short, Size, Unknown};
use crate::device::MOST_CLOCKS;
use crate::parts::PARTS;
use crate::request::{Call, Request};
use crate::table::{look_up, Command, Data, Wait};
use crate::wires::{can_be_driven, clocks_for_bits};

/// Refusals of a build in the order of checking.
pub const OF_BUILD: [Answer; 6] = [Unknown, Address, Reserved, Short, Long, Size];
/// Refusals of a gathering in the order of checking.
pub const OF_GATHER: [Answer; 3] = [Unknown, Sample, Size];

/// Refusals of a build that can hold at once, the earlier one first. Long never
/// holds with Reserved, since 4B runs on, nor with Short, which asks for fewer
/// bytes.
pub const PAIRS_OF_BUILD: [(Answer, Answer); 13] = [
    (Unknown, Address),
    (Unknown, Reserved),
    (Unknown, Short),
    (Unknown, Long),
    (Unknown, Size),
    (Address, Reserved),
    (Address, Short),
    (Address, Long),
    (Address, Size),
    (Reserved, Short),
    (Reserved, Size),
    (Short, Size),
    (Long, Size),
];
/// The same for a gathering.
pub const PAIRS_OF_GATHER: [(Answer, Answer); 3] =
    [(Unknown, Sample), (Unknown, Size), (Sample, Size)];

/// Clocks that a command takes with so many bytes, in wide numbers. Configuration
/// 2 counts with its low four bits, so that a value too large needs no more.
pub fn clocks_of(command: &Command, mode: u8, configuration2: u8, bytes: u64) -> u64 {
    let wires = command.rest_wires;
    let address_clocks = if command.address {
        clocks_for_bits(24, wires)
    } else {
        0
    };
    let wait_clocks = match command.wait {
        Wait::Clocks(clocks) => clocks,
        Wait::Configuration2 => usize::from(configuration2 & 0x0F),
    };
    let before_data = clocks_for_bits(8, mode) + address_clocks + wait_clocks;
    before_data as u64 + bytes * clocks_for_bits(8, wires) as u64
}

/// The bytes of the data phase that a request gives or asks for, by the command.
pub fn bytes_of(data: Data, request: &Request) -> u64 {
    let given_bytes = request.data.len() as u64;
    let asked_bytes = u64::from(request.number);
    match data {
        Data::None => given_bytes + asked_bytes,
        Data::ReadFixed(_) | Data::ReadMapped | Data::ReadRunning => asked_bytes,
        Data::WriteFixed(_) | Data::WriteRunning => given_bytes,
    }
}

/// Whether one refusal other than Unknown holds for the request as this command.
fn holds(refusal: Answer, request: &Request, command: &Command, mode: u8) -> bool {
    let bytes = bytes_of(command.data, request);
    match refusal {
        Address => command.address && request.address >> 24 != 0,
        Reserved => command.wait == Wait::Configuration2 && request.configuration2 >> 4 != 0,
        Short => match command.data {
            Data::None => false,
            Data::WriteFixed(size) => bytes < size as u64,
            _ => bytes == 0,
        },
        Long => match command.data {
            Data::None => bytes > 0,
            Data::ReadFixed(size) | Data::WriteFixed(size) => bytes > size as u64,
            Data::ReadMapped => bytes > 8,
            Data::ReadRunning | Data::WriteRunning => false,
        },
        Size => {
            let clocks = clocks_of(command, mode, request.configuration2, bytes);
            clocks > MOST_CLOCKS as u64 || clocks > request.room as u64
        }
        _ => false,
    }
}

/// Every refusal of a build that holds. With an unknown command the later ones
/// are those that the same request has under any command which the tables give
/// its opcode for another part or mode.
fn faults_of_build(request: &Request) -> Vec<Answer> {
    let (part, opcode, mode) = (request.part_or_wires, request.opcode, request.mode);
    let mut meanings = Vec::new();
    let known = look_up(part, opcode, mode);
    match known {
        Some(command) => meanings.push((command, mode)),
        None => {
            for part in PARTS {
                for &mode in part.modes() {
                    meanings.extend(part.command(opcode, mode).map(|command| (command, mode)));
                }
            }
        }
    }
    OF_BUILD
        .into_iter()
        .filter(|&refusal| match refusal {
            Unknown => known.is_none(),
            _ => meanings
                .iter()
                .any(|(command, mode)| holds(refusal, request, command, *mode)),
        })
        .collect()
}

/// Every refusal of a gathering that holds. With another number of wires the
/// later ones are those that the same samples have on one, two or four.
fn faults_of_gather(request: &Request) -> Vec<Answer> {
    let known = matches!(request.part_or_wires, 1 | 2 | 4);
    let meanings = if known {
        vec![request.part_or_wires]
    } else {
        vec![1, 2, 4]
    };
    let stray = |wires: u8| {
        let fits = |&sample: &u8| sample == 0 || can_be_driven(sample, wires);
        !request.data.iter().all(fits)
    };
    let whole_bytes = |wires: u8| {
        let clocks = request.data.iter().filter(|&&sample| sample != 0).count();
        clocks / clocks_for_bits(8, wires)
    };
    OF_GATHER
        .into_iter()
        .filter(|refusal| match refusal {
            Unknown => !known,
            Sample => meanings.iter().all(|&wires| stray(wires)),
            _ => meanings
                .iter()
                .any(|&wires| whole_bytes(wires) > request.room),
        })
        .collect()
}

/// Every refusal that holds, in the order of checking; the first is the answer.
pub fn faults(request: &Request) -> Vec<Answer> {
    match request.call {
        Call::Build => faults_of_build(request),
        Call::Gather => faults_of_gather(request),
    }
}
