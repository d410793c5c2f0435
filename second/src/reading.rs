//! Reading: what the clocks of one transaction say by the command table, before
//! anything is judged.

use crate::answer::{Answer, Counts};
use crate::device::Record;
use crate::parts::Part;
use crate::table::{Command, Data, Wait};
use crate::wires::{clocks_for_bits, clocks_for_bytes, collect};

/// One transaction, cut into its phases.
pub struct Reading {
    /// Nothing where the command bits are incomplete.
    pub opcode: Option<u8>,
    /// Nothing where the table has no such opcode in this mode.
    pub command: Option<Command>,
    /// Nothing where the command has no address or its bits are incomplete.
    pub address: Option<u32>,
    /// Clocks by phase as the command has them, also of one that is not obeyed.
    pub clocks: Counts,
    /// The whole bytes of a write's data phase.
    pub data: Vec<u8>,
}

impl Reading {
    /// The data phase; an unknown command has none.
    pub fn phase(&self) -> Data {
        self.command.map_or(Data::None, |command| command.data)
    }

    /// The counts that go with an answer: once 5, 6 or 7 is decided, all further
    /// clocks are rest.
    pub fn counts(&self, answer: Answer) -> Counts {
        let (command, address) = match answer {
            Answer::Unknown | Answer::Asleep => (self.clocks.command, 0),
            Answer::Address => (self.clocks.command, self.clocks.address),
            _ => return self.clocks,
        };
        Counts {
            command,
            address,
            rest: self.clocks.clocks() - command - address,
            ..Counts::default()
        }
    }
}

/// Takes up to so many clocks off the front.
fn take<'a>(left: &mut &'a [u8], most_clocks: usize) -> &'a [u8] {
    let (taken, after) = left.split_at(most_clocks.min(left.len()));
    *left = after;
    taken
}

/// Cuts the samples into phases. A phase that is not full leaves no clocks for
/// the next ones.
pub fn read(part: &Part, record: &Record, samples: &[u8]) -> Reading {
    let count = |clocks: &[u8]| clocks.len() as u32;
    let mut left = samples;

    let command_part = take(&mut left, clocks_for_bits(8, record.mode));
    let opcode = collect(command_part, record.mode).first().copied();
    let command = opcode.and_then(|opcode| part.command(opcode, record.mode));
    let mut reading = Reading {
        opcode,
        command,
        address: None,
        clocks: Counts {
            command: count(command_part),
            ..Counts::default()
        },
        data: Vec::new(),
    };
    if let Some(command) = command {
        let wires = command.rest_wires;
        if command.address {
            let address_part = take(&mut left, clocks_for_bits(24, wires));
            reading.clocks.address = count(address_part);
            if let [high, middle, low] = collect(address_part, wires)[..] {
                reading.address = Some(u32::from_be_bytes([0, high, middle, low]));
            }
        }

        let wait_clocks = match command.wait {
            Wait::Clocks(clocks) => clocks,
            Wait::Configuration2 => usize::from(record.configurations[1] & 0x0F),
        };
        reading.clocks.wait = count(take(&mut left, wait_clocks));

        let mapped = reading.address.and_then(|at| part.register_at(at));
        let most_data_clocks = match command.data {
            Data::None => 0,
            Data::ReadFixed(bytes) | Data::WriteFixed(bytes) => clocks_for_bytes(bytes, wires),
            Data::ReadMapped => mapped.map_or(0, |(_, bytes)| clocks_for_bytes(bytes, wires)),
            Data::ReadRunning | Data::WriteRunning => left.len(),
        };
        let data_part = take(&mut left, most_data_clocks);
        reading.clocks.data = count(data_part);
        if let Data::WriteFixed(_) | Data::WriteRunning = command.data {
            reading.data = collect(data_part, wires);
        }
    }
    reading.clocks.rest = count(left);
    reading
}
