//! The open transaction as a record holds it: a few facts about the samples that
//! have come, not the samples (document 02, P1). Here facts are taken from samples,
//! and samples are found for facts.

use crate::answer::Answer;
use crate::device::{Record, MOST_CLOCKS};
use crate::judging::judge;
use crate::parts::Part;
use crate::places::{burst, in_area};
use crate::reading::read;
use crate::table::{Data, Wait};
use crate::wires::{as_number, clocks_for_bits, spread_number};

/// The facts of an open transaction; with none open all of them are 0.
#[derive(Clone, Copy, PartialEq, Eq, Debug, Default)]
pub struct Open {
    /// Whether a transaction is open.
    pub flag: bool,
    /// Clocks of all its good chunks.
    pub clocks: u32,
    /// The command's byte once it is whole.
    pub opcode: u8,
    /// All 24 bits of the address once it is whole, allowed or not.
    pub address: u32,
    /// The bits of what is being gathered and is not whole yet: of the command, the
    /// address or a byte that is written.
    pub number: u32,
    /// The whole bytes of a register write, each in its place.
    pub value: [u8; 8],
}

/// The facts of a transaction of which these samples have come to a chip that had
/// this record before.
pub fn facts(part: &Part, before: &Record, samples: &[u8]) -> Open {
    let reading = read(part, before, samples);
    let mut open = Open {
        flag: true,
        clocks: samples.len() as u32,
        ..Open::default()
    };
    let Some(opcode) = reading.opcode else {
        open.number = as_number(samples, before.mode);
        return open;
    };
    open.opcode = opcode;
    // 5, 6 and 7 are decided before the transaction ends, and what comes behind
    // them is not gathered.
    let answer = judge(part, before, &reading);
    let command = match reading.command {
        Some(command) if answer != Answer::Asleep => command,
        _ => return open,
    };
    let (clocks, wires) = (&reading.clocks, command.rest_wires);
    if command.address {
        let Some(address) = reading.address else {
            open.number = as_number(&samples[clocks.command as usize..], wires);
            return open;
        };
        open.address = address;
        if answer == Answer::Address {
            return open;
        }
    }
    if let Data::WriteFixed(_) | Data::WriteRunning = command.data {
        let first = (clocks.command + clocks.address + clocks.wait) as usize;
        let data = &samples[first..first + clocks.data as usize];
        let whole_clocks = reading.data.len() * clocks_for_bits(8, wires);
        open.number = as_number(&data[whole_clocks..], wires);
    }
    if let Data::WriteFixed(_) = command.data {
        open.value[..reading.data.len()].copy_from_slice(&reading.data);
    }
    open
}

/// Samples in work, until there are as many as the facts tell.
struct Rebuilt {
    samples: Vec<u8>,
    clocks: usize,
    /// What stands where there are clocks for a part of something only.
    number: u32,
}

impl Rebuilt {
    fn clocks_left(&self) -> usize {
        self.clocks - self.samples.len()
    }

    /// Adds a value of so many bits, or the number where its clocks do not all fit.
    fn put(&mut self, value: u32, bits: usize, wires: u8) {
        let whole_clocks = clocks_for_bits(bits, wires);
        let clocks = whole_clocks.min(self.clocks_left());
        let bits = if clocks == whole_clocks {
            value
        } else {
            self.number
        };
        self.samples.extend(spread_number(bits, clocks, wires));
    }

    /// Adds up to so many clocks that say nothing.
    fn idle(&mut self, most_clocks: usize) {
        let clocks = most_clocks.min(self.clocks_left());
        self.samples.resize(self.samples.len() + clocks, 0);
    }
}

/// Samples that reach the facts of a record with a transaction open, if any samples
/// do, and at most the clocks that a transaction may have. The bytes of a burst are
/// those that memory and area hold where they go, so that to store them again
/// changes nothing.
///
/// What the samples say once 5, 6 or 7 is decided is no matter, so that the command
/// table alone is followed here.
pub fn rebuild(part: &Part, record: &Record, memory: &[u8], area: &[u8]) -> Vec<u8> {
    let open = &record.open;
    let mut rebuilt = Rebuilt {
        samples: Vec::new(),
        clocks: MOST_CLOCKS.min(open.clocks as usize),
        number: open.number,
    };
    rebuilt.put(u32::from(open.opcode), 8, record.mode);
    if let Some(command) = part.command(open.opcode, record.mode) {
        let wires = command.rest_wires;
        if command.address {
            rebuilt.put(open.address, 24, wires);
        }
        rebuilt.idle(match command.wait {
            Wait::Clocks(clocks) => clocks,
            Wait::Configuration2 => usize::from(record.configurations[1] & 0x0F),
        });
        match command.data {
            Data::WriteFixed(bytes) => {
                for &byte in &open.value[..bytes] {
                    rebuilt.put(u32::from(byte), 8, wires);
                }
            }
            Data::WriteRunning => {
                let store = if in_area(part, open.opcode) {
                    area
                } else {
                    memory
                };
                let way = burst(part, record, open.opcode, open.address);
                let mut index = 0;
                while rebuilt.clocks_left() > 0 {
                    // An address that is not allowed has no place.
                    let byte = store.get(way.place(index)).copied().unwrap_or(0);
                    rebuilt.put(u32::from(byte), 8, wires);
                    index += 1;
                }
            }
            Data::None | Data::ReadFixed(_) | Data::ReadMapped | Data::ReadRunning => {}
        }
    }
    rebuilt.idle(MOST_CLOCKS);
    rebuilt.samples
}

/// Whether some chunks reach the facts of this record, whose registers fit, from
/// the same record with none open: samples are found for the facts as far as there
/// are any, and must have these facts and no others.
pub fn reachable(part: &Part, record: &Record) -> bool {
    record.open.clocks as usize <= MOST_CLOCKS
        && facts(part, record, &rebuild(part, record, &[], &[])) == record.open
}
