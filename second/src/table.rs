//! The command tables of both families (document 01, "Commands of part M" and
//! "Commands of part P").
//!
//! The opcodes of the MRAM's writes are those of document 000, with document 002
//! where the scan of 000 is damaged: 87 for the configurations, C2 for the serial
//! number, 1A for the area protection, 02 for memory, 42 for the area. Both MRAM
//! parts have the same commands.

use crate::parts::{find, Family, Part};

/// The data phase of a command, sizes in bytes.
#[derive(Clone, Copy, PartialEq, Eq, Debug)]
pub enum Data {
    /// No data phase at all.
    None,
    /// The device sends exactly this many bytes; clocks past them are rest.
    ReadFixed(usize),
    /// Opcode 65: the size is that of the register the address names.
    ReadMapped,
    /// The device sends bytes as long as clocks come.
    ReadRunning,
    /// The device takes exactly this many bytes.
    WriteFixed(usize),
    /// The device takes bytes as long as clocks come.
    WriteRunning,
}

/// The wait between address and data, always in clocks.
#[derive(Clone, Copy, PartialEq, Eq, Debug)]
pub enum Wait {
    Clocks(usize),
    /// Low four bits of configuration 2.
    Configuration2,
}

/// What a known opcode means in one mode of one part.
#[derive(Clone, Copy, PartialEq, Eq, Debug)]
pub struct Command {
    /// Wires of all phases after the command byte.
    pub rest_wires: u8,
    /// Whether 24 address bits follow the command byte.
    pub address: bool,
    pub wait: Wait,
    pub data: Data,
}

fn bare(wires: u8, data: Data) -> Option<Command> {
    Some(Command {
        rest_wires: wires,
        address: false,
        wait: Wait::Clocks(0),
        data,
    })
}

fn addressed(wires: u8, wait_clocks: usize, data: Data) -> Option<Command> {
    Some(Command {
        rest_wires: wires,
        address: true,
        wait: Wait::Clocks(wait_clocks),
        data,
    })
}

/// The command for this part number, opcode and bus mode, or nothing where there
/// is no such part or its table has none (which is answer 5).
pub fn look_up(number: u8, opcode: u8, mode: u8) -> Option<Command> {
    find(number)?.command(opcode, mode)
}

impl Part {
    /// Bus modes that the part has.
    pub fn modes(&self) -> &'static [u8] {
        match self.family {
            Family::Mram => &[1, 2, 4],
            Family::Psram => &[1, 4],
        }
    }

    /// The command for this opcode and bus mode, if the part's table has one.
    pub fn command(&self, opcode: u8, mode: u8) -> Option<Command> {
        if !self.modes().contains(&mode) {
            return None;
        }
        match self.family {
            Family::Mram => mram_command(opcode, mode),
            Family::Psram => psram_command(opcode, mode),
        }
    }

    /// All opcodes that the part knows in at least one mode, in rising order.
    pub fn opcodes(&self) -> Vec<u8> {
        let known = |opcode: &u8| {
            let mut modes = self.modes().iter();
            modes.any(|&mode| self.command(*opcode, mode).is_some())
        };
        (0..=255).filter(known).collect()
    }
}

fn mram_command(opcode: u8, mode: u8) -> Option<Command> {
    match opcode {
        // No operation, write enable and disable, sleep and wake, reset enable and reset.
        0x00 | 0x06 | 0x04 | 0xB9 | 0xAB | 0x66 | 0x99 => bare(mode, Data::None),
        // A move to the mode already in force is not in the table.
        0x37 if mode != 2 => bare(mode, Data::None),
        0x38 if mode != 4 => bare(mode, Data::None),
        0xFF if mode != 1 => bare(mode, Data::None),
        0x05 | 0x14 | 0x35 | 0x3F | 0x44 | 0x45 => bare(mode, Data::ReadFixed(1)),
        0x46 | 0x9F => bare(mode, Data::ReadFixed(4)),
        0x4C | 0xC3 => bare(mode, Data::ReadFixed(8)),
        // 8, 4 or 2 clocks: the time of one byte on the wires in use.
        0x65 => addressed(mode, 8 / usize::from(mode), Data::ReadMapped),
        0x03 if mode == 1 => addressed(1, 0, Data::ReadRunning),
        0x4B if mode == 1 => Some(Command {
            rest_wires: 1,
            address: true,
            wait: Wait::Configuration2,
            data: Data::ReadRunning,
        }),
        0x01 | 0x1A => bare(mode, Data::WriteFixed(1)),
        0x87 => bare(mode, Data::WriteFixed(4)),
        0xC2 => bare(mode, Data::WriteFixed(8)),
        0x02 => addressed(mode, 0, Data::WriteRunning),
        0x42 if mode == 1 => addressed(1, 0, Data::WriteRunning),
        _ => None,
    }
}

fn psram_command(opcode: u8, mode: u8) -> Option<Command> {
    // Most waits differ between the two modes.
    let wait = |one: usize, four: usize| if mode == 1 { one } else { four };
    match opcode {
        0x03 if mode == 1 => addressed(1, 0, Data::ReadRunning),
        0x0B => addressed(mode, wait(8, 4), Data::ReadRunning),
        // In mode 1 only the command byte of EB and 38 goes on one wire.
        0xEB => addressed(4, 6, Data::ReadRunning),
        0x8B => addressed(mode, wait(8, 6), Data::ReadRunning),
        0x02 | 0x82 => addressed(mode, 0, Data::WriteRunning),
        0x38 => addressed(4, 0, Data::WriteRunning),
        0xB5 => addressed(mode, wait(8, 6), Data::ReadFixed(1)),
        0xB1 => addressed(mode, 0, Data::WriteFixed(1)),
        // Address clocks are there, only their value is ignored.
        0x9F if mode == 1 => addressed(1, 0, Data::ReadFixed(8)),
        0x35 if mode == 1 => bare(1, Data::None),
        0xF5 if mode == 4 => bare(4, Data::None),
        0x66 | 0x99 | 0xC0 => bare(mode, Data::None),
        _ => None,
    }
}
