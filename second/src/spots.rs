//! Where an open transaction stands: the phase that its next clock belongs to, and
//! how far it has come in it. It is told by the facts in the record.

use crate::device::Record;
use crate::judging::allows_address;
use crate::parts::{Family, Part};
use crate::places::in_area;
use crate::table::{Data, Wait};
use crate::wires::{clocks_for_bits, clocks_for_bytes};

/// Why all further clocks are rest.
#[derive(Clone, Copy, PartialEq, Eq, PartialOrd, Ord, Debug)]
pub enum Why {
    /// 6 is decided.
    Asleep,
    /// 5 is decided.
    Unknown,
    /// 7 is decided.
    Address,
    /// Past a read of fixed size.
    PastRead,
    /// Past a command without data.
    PastCommand,
    /// Past a write of fixed size.
    PastWrite,
}

/// A phase, the data phases by what is read or written.
#[derive(Clone, Copy, PartialEq, Eq, PartialOrd, Ord, Debug)]
pub enum Phase {
    Command,
    Address,
    Wait,
    Read,
    Memory,
    Area,
    Register,
    Rest(Why),
}

const PHASES: [Phase; 13] = [
    Phase::Command,
    Phase::Address,
    Phase::Wait,
    Phase::Read,
    Phase::Memory,
    Phase::Area,
    Phase::Register,
    Phase::Rest(Why::Asleep),
    Phase::Rest(Why::Unknown),
    Phase::Rest(Why::Address),
    Phase::Rest(Why::PastRead),
    Phase::Rest(Why::PastCommand),
    Phase::Rest(Why::PastWrite),
];

impl Phase {
    /// The phases that a transaction of this part can stand in; the PSRAM has no area
    /// and does not sleep.
    pub fn list(part: &Part) -> Vec<Phase> {
        let mrams = [Phase::Area, Phase::Rest(Why::Asleep)];
        let mut list = PHASES.to_vec();
        list.retain(|phase| part.family == Family::Mram || !mrams.contains(phase));
        list
    }

    /// Whether bits are gathered in it.
    pub fn gathers(self) -> bool {
        matches!(
            self,
            Phase::Command | Phase::Address | Phase::Memory | Phase::Area | Phase::Register
        )
    }

    /// Whether chunks have to be cut at each clock of it, or of a byte in it.
    pub fn by_clock(self) -> bool {
        self.gathers() || self == Phase::Read
    }

    /// The numbers of wires that the phase can be on.
    pub fn wires(self, part: &Part) -> Vec<u8> {
        if self == Phase::Area {
            vec![1]
        } else {
            part.modes().to_vec()
        }
    }

    pub fn word(self) -> &'static str {
        match self {
            Phase::Command => "command",
            Phase::Address => "address",
            Phase::Wait => "wait",
            Phase::Read => "read data",
            Phase::Memory => "memory write data",
            Phase::Area => "augmented write data",
            Phase::Register => "register write data",
            Phase::Rest(Why::Asleep) => "rest after 6",
            Phase::Rest(Why::Unknown) => "rest after 5",
            Phase::Rest(Why::Address) => "rest after 7",
            Phase::Rest(Why::PastRead) => "rest after a read",
            Phase::Rest(Why::PastCommand) => "rest after a command without data",
            Phase::Rest(Why::PastWrite) => "rest after a register write",
        }
    }
}

/// A place in a transaction.
#[derive(Clone, Copy, PartialEq, Eq, PartialOrd, Ord, Debug)]
pub struct Spot {
    pub phase: Phase,
    pub wires: u8,
    /// Clocks that have come of the command, address, wait or rest, or of the byte
    /// in a data phase.
    pub clocks: usize,
}

impl Spot {
    /// Where the open transaction of a record stands whose registers fit.
    pub fn of(part: &Part, record: &Record) -> Spot {
        let open = &record.open;
        let mut clocks = open.clocks as usize;
        // Takes a phase off if it is whole.
        let mut passes = |phase_clocks: usize| {
            let whole = clocks >= phase_clocks;
            if whole {
                clocks -= phase_clocks;
            }
            whole
        };
        let mut wires = record.mode;
        let phase = 'found: {
            if !passes(clocks_for_bits(8, wires)) {
                break 'found Phase::Command;
            }
            if record.asleep && open.opcode != 0xAB {
                break 'found Phase::Rest(Why::Asleep);
            }
            let Some(command) = part.command(open.opcode, record.mode) else {
                break 'found Phase::Rest(Why::Unknown);
            };
            wires = command.rest_wires;
            if command.address {
                if !passes(clocks_for_bits(24, wires)) {
                    break 'found Phase::Address;
                }
                if !allows_address(part, record, open.opcode, open.address) {
                    break 'found Phase::Rest(Why::Address);
                }
            }
            let wait_clocks = match command.wait {
                Wait::Clocks(clocks) => clocks,
                Wait::Configuration2 => usize::from(record.configurations[1] & 0x0F),
            };
            if !passes(wait_clocks) {
                break 'found Phase::Wait;
            }
            let mapped = part.register_at(open.address);
            let (bytes, data, past) = match command.data {
                Data::None => (Some(0), Phase::Read, Why::PastCommand),
                Data::ReadFixed(bytes) => (Some(bytes), Phase::Read, Why::PastRead),
                Data::ReadMapped => (mapped.map(|found| found.1), Phase::Read, Why::PastRead),
                Data::ReadRunning => (None, Phase::Read, Why::PastRead),
                Data::WriteFixed(bytes) => (Some(bytes), Phase::Register, Why::PastWrite),
                Data::WriteRunning if in_area(part, open.opcode) => {
                    (None, Phase::Area, Why::PastWrite)
                }
                Data::WriteRunning => (None, Phase::Memory, Why::PastWrite),
            };
            match bytes {
                Some(bytes) if passes(clocks_for_bytes(bytes, wires)) => Phase::Rest(past),
                _ => data,
            }
        };
        if matches!(
            phase,
            Phase::Read | Phase::Memory | Phase::Area | Phase::Register
        ) {
            clocks %= clocks_for_bits(8, wires);
        }
        Spot {
            phase,
            wires,
            clocks,
        }
    }

    /// The same where of a wait and the rest only the beginning and all else are told
    /// apart.
    pub fn rough(self) -> Spot {
        Spot {
            clocks: if self.phase.by_clock() {
                self.clocks
            } else {
                self.clocks.min(1)
            },
            ..self
        }
    }

    /// The same where only the phase is told.
    pub fn phase_alone(self) -> Spot {
        Spot {
            wires: 0,
            clocks: 0,
            ..self
        }
    }

    /// All rough spots of this part at which chunks have to be cut; before the first
    /// clock there is nothing to cut.
    pub fn list(part: &Part) -> Vec<Spot> {
        let mut list = Vec::new();
        for phase in Phase::list(part) {
            for wires in phase.wires(part) {
                let clocks = match phase {
                    Phase::Command => 1..clocks_for_bits(8, wires),
                    Phase::Address => 0..clocks_for_bits(24, wires),
                    _ if phase.by_clock() => 0..clocks_for_bits(8, wires),
                    _ => 0..2,
                };
                list.extend(clocks.map(|clocks| Spot {
                    phase,
                    wires,
                    clocks,
                }));
            }
        }
        list
    }

    /// Bits that have come of what is gathered here.
    pub fn bits(self) -> usize {
        if self.phase.gathers() {
            self.clocks * usize::from(self.wires)
        } else {
            0
        }
    }
}
