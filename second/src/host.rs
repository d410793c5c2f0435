//! The host half: samples for a command, and bytes back from output samples
//! (document 01, "The host half").

use crate::answer::Answer;
use crate::device::MOST_CLOCKS;
use crate::table::{look_up, Data, Wait};
use crate::wires::{can_be_driven, clocks_for_bits, driven_levels, spread};

/// Builds the samples of one command into `room`. Tells the answer and, for
/// answer 0, the number of samples written; a refusal writes nothing and tells 0.
#[allow(clippy::too_many_arguments)]
pub fn build(
    part: u32,
    opcode: u32,
    mode: u32,
    address: u32,
    configuration2: u32,
    data: &[u8],
    number: u32,
    room: &mut [u8],
) -> (Answer, u32) {
    // 5: a value that does not even fit a byte is not in the table either.
    let (Ok(part), Ok(opcode), Ok(mode)) =
        (u8::try_from(part), u8::try_from(opcode), u8::try_from(mode))
    else {
        return (Answer::Unknown, 0);
    };
    let Some(command) = look_up(part, opcode, mode) else {
        return (Answer::Unknown, 0);
    };
    let wires = command.rest_wires;

    // 7: only where the command sends an address at all.
    if command.address && address > 0xFF_FFFF {
        return (Answer::Address, 0);
    }

    // 10: configuration 2 counts only where it gives the wait, which is for 4B.
    if command.wait == Wait::Configuration2 && configuration2 > 0x0F {
        return (Answer::Reserved, 0);
    }

    // 4 and 11. A read looks at the number alone, a write at the data alone.
    let given_bytes = data.len() as u64;
    let asked_bytes = u64::from(number);
    let (least_bytes, most_bytes, bytes) = match command.data {
        Data::None => (0, 0, given_bytes + asked_bytes),
        Data::ReadFixed(size) => (1, size as u64, asked_bytes),
        Data::ReadMapped => (1, 8, asked_bytes),
        Data::ReadRunning => (1, u64::MAX, asked_bytes),
        Data::WriteFixed(size) => (size as u64, size as u64, given_bytes),
        Data::WriteRunning => (1, u64::MAX, given_bytes),
    };
    if bytes < least_bytes {
        return (Answer::Short, 0);
    }
    if bytes > most_bytes {
        return (Answer::Long, 0);
    }

    // 1: the whole length, worked out in wide numbers.
    let command_clocks = clocks_for_bits(8, mode) as u64;
    let address_clocks = if command.address {
        clocks_for_bits(24, wires) as u64
    } else {
        0
    };
    let wait_clocks = match command.wait {
        Wait::Clocks(clocks) => clocks as u64,
        Wait::Configuration2 => u64::from(configuration2),
    };
    let data_clocks = bytes.saturating_mul(clocks_for_bits(8, wires) as u64);
    let clocks = (command_clocks + address_clocks + wait_clocks).saturating_add(data_clocks);
    if clocks > MOST_CLOCKS as u64 || clocks > room.len() as u64 {
        return (Answer::Size, 0);
    }

    let mut samples = spread(opcode, mode);
    if command.address {
        for byte in &address.to_be_bytes()[1..] {
            samples.extend(spread(*byte, wires));
        }
    }
    samples.extend(std::iter::repeat_n(0, wait_clocks as usize));
    match command.data {
        Data::WriteFixed(_) | Data::WriteRunning => {
            for byte in data {
                samples.extend(spread(*byte, wires));
            }
        }
        _ => samples.extend(std::iter::repeat_n(0, data_clocks as usize)),
    }
    room[..samples.len()].copy_from_slice(&samples);
    (Answer::Done, samples.len() as u32)
}

/// Gathers the bytes that a device sent on so many wires. Undriven clocks are
/// skipped wherever they stand, and a last byte that is not full is dropped.
/// Tells the answer and, for answer 0, the number of bytes written.
pub fn gather(wires: u32, outputs: &[u8], room: &mut [u8]) -> (Answer, u32) {
    let wires = match wires {
        1 => 1u8,
        2 => 2,
        4 => 4,
        _ => return (Answer::Unknown, 0),
    };
    if outputs
        .iter()
        .any(|&output| output != 0 && !can_be_driven(output, wires))
    {
        return (Answer::Sample, 0);
    }
    let driven: Vec<u8> = outputs.iter().copied().filter(|&o| o != 0).collect();
    let bytes: Vec<u8> = driven
        .chunks_exact(clocks_for_bits(8, wires))
        .map(|clocks| {
            clocks.iter().fold(0u8, |byte, &output| {
                (byte << wires) | driven_levels(output, wires)
            })
        })
        .collect();
    if room.len() < bytes.len() {
        return (Answer::Size, 0);
    }
    room[..bytes.len()].copy_from_slice(&bytes);
    (Answer::Done, bytes.len() as u32)
}
