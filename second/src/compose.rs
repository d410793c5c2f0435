//! The samples of one drawn transaction: a well-formed command for the state that
//! a record is in, and ways to cut, stretch or spoil it.

use crate::device::Record;
use crate::parts::{Family, Part};
use crate::places::{share_bytes, wrap_length};
use crate::rng::Rng;
use crate::table::{Data, Wait};
use crate::wires::{clocks_for_bits, spread};

/// What a composed transaction should be like; what is left open is drawn.
#[derive(Clone, Default)]
pub struct Plan {
    pub address: Option<u32>,
    pub bytes: Option<usize>,
    /// The bytes of a register write.
    pub values: Option<Vec<u8>>,
    /// Up to this many clocks; 0 means a short one.
    pub long_clocks: usize,
    /// End with a byte whose clocks do not all come.
    pub loose: bool,
    /// Write a value that the register does not allow.
    pub bad_value: bool,
    /// Have nothing wrong but what is asked for above: no phase is cut, and address
    /// and values are allowed.
    pub sound: bool,
}

impl Plan {
    pub fn sound() -> Plan {
        Plan {
            sound: true,
            ..Plan::default()
        }
    }
}

/// Adds one byte on so many wires, with random levels on the others if noisy.
pub fn push_byte(rng: &mut Rng, samples: &mut Vec<u8>, byte: u8, wires: u8, noisy: bool) {
    for sample in spread(byte, wires) {
        let noise = if noisy { rng.byte() & 0x0F } else { 0 };
        let unused = noise & !((1u8 << wires) - 1);
        samples.push(sample | unused);
    }
}

/// Adds clocks at which the device does not listen.
pub fn push_idle(rng: &mut Rng, samples: &mut Vec<u8>, clocks: usize, noisy: bool) {
    for _ in 0..clocks {
        samples.push(if noisy { rng.byte() & 0x0F } else { 0 });
    }
}

/// Length of the group that a read of this record stays in, or the whole memory.
fn read_group(part: &Part, record: &Record) -> usize {
    wrap_length(part, record).unwrap_or(1 << record.n)
}

/// An address for this command, mostly at a place where something happens: the
/// top, a group's end, a protected border, a place touched before. If it is to be
/// sound it is allowed.
pub fn pick_address(
    rng: &mut Rng,
    part: &Part,
    record: &Record,
    opcode: u8,
    hot: &[u32],
    sound: bool,
) -> u32 {
    let size = 1usize << record.n;
    // Addresses that are not allowed come out of the first seven.
    let drawn = if sound {
        7 + rng.below(17)
    } else {
        rng.below(24)
    };
    let address = match (part.family, opcode) {
        (Family::Mram, 0x65) => match drawn {
            0 => rng.below(1 << 24),
            1..=3 => rng.pick(&[0x01, 0x01, 0x06, 0x10, 0x20, 0x80, 0x80, 0x81]),
            4 | 5 => rng.pick(&[0x31, 0x33, 0x41, 0x47, 0x2F, 0x3F]),
            6 => rng.pick(&[0x00, 0x02, 0x05, 0x30, 0x40]) | 0x80 << rng.below(17),
            _ => rng.pick(part.register_map).0 as usize,
        },
        (Family::Mram, 0x4B | 0x42) => {
            let (area, section) = (part.area_bytes, part.section_bytes);
            let bits = area.ilog2() as usize;
            match drawn {
                0 => area + rng.below(4),
                1 => 1 << (bits + rng.below(24 - bits)) | rng.below(area),
                2..=7 => (section * rng.below(area / section) + area - 4 + rng.below(8)) % area,
                8..=11 => area - 6 + rng.below(6),
                _ => rng.below(area),
            }
        }
        (Family::Mram, _) => {
            let share = share_bytes(record);
            let border = if record.status & 0x20 == 0 {
                size - share
            } else {
                share
            };
            match drawn {
                0 => size + rng.below(3),
                1 => 1 << (usize::from(record.n) + rng.below(24 - usize::from(record.n))),
                2 => size - 1,
                3 | 4 => size - 1 - rng.below(6),
                5..=9 => (border + size - 5 + rng.below(8)) % size,
                10 | 11 if share > 0 => {
                    let within = rng.below(share);
                    if record.status & 0x20 == 0 {
                        size - share + within
                    } else {
                        within
                    }
                }
                12..=15 if !hot.is_empty() => rng.pick(hot) as usize % size,
                16 => rng.below(4),
                17..=19 => {
                    let group = read_group(part, record);
                    (rng.below(size / group) * group + group - 1 - rng.below(4)) % size
                }
                _ => rng.below(size),
            }
        }
        (Family::Psram, 0xB5 | 0xB1) => {
            let low = if drawn < 4 { 1 + rng.below(15) } else { 0 };
            if drawn < 12 {
                low
            } else {
                rng.below(1 << 20) << 4 | low
            }
        }
        (Family::Psram, 0x9F) => rng.below(1 << 24),
        (Family::Psram, _) => {
            let group = read_group(part, record);
            let inside = match drawn {
                0..=7 => (rng.below(size / group) + 1) * group - 1 - rng.below(4),
                8..=10 => size - 1 - rng.below(6),
                11..=16 if !hot.is_empty() => rng.pick(hot) as usize % size,
                17 => rng.below(4),
                _ => rng.below(size),
            };
            // Bits without memory are ignored here; now and then they are set.
            if rng.chance(1, 3) {
                inside | rng.below(1 << (24 - record.n)) << record.n
            } else {
                inside
            }
        }
    };
    address as u32 & 0xFF_FFFF
}

/// How many bytes a running command moves when nothing else is asked.
fn pick_bytes(rng: &mut Rng, part: &Part, record: &Record) -> usize {
    let group = read_group(part, record);
    match rng.below(40) {
        0..=21 => 1 + rng.below(4),
        22..=33 => 3 + rng.below(8),
        34..=37 => 9 + rng.below(12),
        // Once round a small group and a little more.
        _ if group <= 64 => group + 1 + rng.below(6),
        _ => 20 + rng.below(16),
    }
}

/// Values for a register write: those of the plan, or drawn and mostly allowed.
fn pick_values(rng: &mut Rng, part: &Part, opcode: u8, plan: &Plan) -> Vec<u8> {
    if let Some(values) = &plan.values {
        return values.clone();
    }
    let spoil = plan.bad_value || !plan.sound && rng.chance(1, 6);
    match opcode {
        0x01 => {
            let mut status = (rng.below(16) << 2) as u8;
            if rng.chance(1, 4) {
                status |= 0x02;
            }
            if spoil {
                status |= rng.pick(&[0x80, 0x40, 0x01, 0xC1]);
            }
            vec![status]
        }
        0x87 => {
            let mut values = pick_configurations(rng, part).to_vec();
            if spoil {
                spoil_configurations(rng, part, &mut values);
            }
            values
        }
        0xB1 => {
            let mut value = pick_mr0(rng);
            if spoil {
                value |= rng.pick(&[0x80, 0x10, 0x08, 0x04, 0x03]);
            }
            vec![value]
        }
        0xC2 => rng.bytes(8),
        _ => vec![rng.byte()],
    }
}

/// Allowed configurations 1 to 4.
pub fn pick_configurations(rng: &mut Rng, part: &Part) -> [u8; 4] {
    let wrap = if rng.chance(2, 3) { 0x10 } else { 0 };
    [
        0,
        rng.below(16) as u8,
        (rng.below(8) << 5) as u8 | wrap | rng.below(part.wrap_lengths.len()) as u8,
        0x04 | rng.below(3) as u8,
    ]
}

pub fn spoil_configurations(rng: &mut Rng, part: &Part, values: &mut [u8]) {
    let codes = part.wrap_lengths.len();
    match rng.below(7) {
        0 => values[0] = 1 << rng.below(8),
        1 => values[1] |= 0x10 << rng.below(4),
        2 => values[2] |= 0x08,
        3 => values[2] = values[2] & 0xF8 | (codes + rng.below(8 - codes)) as u8,
        4 => values[3] &= !0x04,
        5 => values[3] |= 0x03,
        _ => values[3] |= 0x08 << rng.below(5),
    }
}

/// An allowed MR0.
pub fn pick_mr0(rng: &mut Rng) -> u8 {
    (rng.below(4) << 5 | rng.below(3)) as u8
}

/// The samples of one command for the state the record is in.
pub fn compose(
    rng: &mut Rng,
    part: &Part,
    record: &Record,
    opcode: u8,
    hot: &[u32],
    plan: &Plan,
) -> Vec<u8> {
    let noisy = rng.chance(2, 5);
    let mut samples = Vec::new();
    push_byte(rng, &mut samples, opcode, record.mode, noisy);
    let Some(command) = part.command(opcode, record.mode) else {
        // Unknown here: all that follows is rest.
        let clocks = match rng.below(4) {
            0 => 0,
            1 => 1 + rng.below(8),
            _ => 8 + rng.below(40),
        };
        push_idle(rng, &mut samples, clocks, true);
        return samples;
    };
    let wires = command.rest_wires;
    let byte_clocks = clocks_for_bits(8, wires);
    let mut address = 0;
    if command.address {
        address = match plan.address {
            Some(address) => address,
            None => pick_address(rng, part, record, opcode, hot, plan.sound),
        };
        for byte in &address.to_be_bytes()[1..] {
            push_byte(rng, &mut samples, *byte, wires, noisy);
        }
        // Some end right here, whatever the address is.
        if !plan.sound && plan.long_clocks == 0 && rng.chance(1, 20) {
            return samples;
        }
    }
    let wait_clocks = match command.wait {
        Wait::Clocks(clocks) => clocks,
        Wait::Configuration2 => usize::from(record.configurations[1]),
    };
    push_idle(rng, &mut samples, wait_clocks, noisy);
    let running_bytes = if plan.long_clocks > 0 {
        plan.long_clocks.saturating_sub(samples.len()) / byte_clocks
    } else {
        match plan.bytes {
            Some(bytes) => bytes,
            None => pick_bytes(rng, part, record),
        }
    };
    // A few clocks of one more byte, now and then.
    let loose_clocks = if plan.loose || plan.long_clocks == 0 && rng.chance(1, 7) {
        1 + rng.below(byte_clocks - 1)
    } else {
        0
    };
    match command.data {
        Data::None => {}
        Data::ReadFixed(_) | Data::ReadMapped => {
            let size = match command.data {
                Data::ReadFixed(bytes) => bytes,
                _ => part.register_at(address).map_or(1, |(_, bytes)| bytes),
            };
            let full = size * byte_clocks;
            let clocks = match rng.below(10) {
                0 | 1 if !plan.sound => rng.below(full),
                2 | 3 => full + 1 + rng.below(9),
                _ => full,
            };
            push_idle(rng, &mut samples, clocks, noisy);
        }
        Data::ReadRunning => {
            let clocks = running_bytes * byte_clocks + loose_clocks;
            push_idle(rng, &mut samples, clocks, noisy);
        }
        Data::WriteFixed(_) => {
            for byte in pick_values(rng, part, opcode, plan) {
                push_byte(rng, &mut samples, byte, wires, noisy);
            }
            match rng.below(24) {
                _ if plan.sound => {}
                0 => {
                    let fewer = 1 + rng.below(byte_clocks);
                    samples.truncate(samples.len() - fewer);
                }
                1 => {
                    let more = 1 + rng.below(byte_clocks);
                    push_idle(rng, &mut samples, more, true);
                }
                _ => {}
            }
        }
        Data::WriteRunning => {
            for _ in 0..running_bytes {
                let byte = rng.byte();
                push_byte(rng, &mut samples, byte, wires, noisy);
            }
            push_idle(rng, &mut samples, loose_clocks, true);
        }
    }
    samples
}

/// Cuts, stretches or spoils about one transaction in eight.
pub fn disturb(rng: &mut Rng, samples: &mut Vec<u8>) {
    match rng.below(54) {
        0..=2 => {
            let kept = rng.below(samples.len() + 1);
            samples.truncate(kept);
        }
        3 => {
            let kept = samples.len().saturating_sub(1 + rng.below(3));
            samples.truncate(kept);
        }
        4 => {
            let more = 1 + rng.below(9);
            push_idle(rng, samples, more, true);
        }
        5 if !samples.is_empty() => {
            let at = rng.below(samples.len());
            samples[at] = rng.pick(&[16, 17, 31, 32, 128, 255]);
        }
        _ => {}
    }
}
