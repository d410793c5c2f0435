//! Courses: a chip together with a transaction for it that passes a certain phase or
//! gets a certain answer, whole or as far as it has come.

use crate::answer::Answer;
use crate::compose::{compose, push_idle, Plan};
use crate::device::Record;
use crate::facts::facts;
use crate::judging::{allows_address, judge};
use crate::parts::{Family, Part};
use crate::places::in_area;
use crate::reading::read;
use crate::records::ready_record;
use crate::rng::Rng;
use crate::spots::{Phase, Spot, Why};
use crate::table::{Command, Data, Wait};

/// A chip with none open and the samples of one transaction.
#[derive(Clone)]
pub struct Course {
    pub part: &'static Part,
    pub record: Record,
    pub samples: Vec<u8>,
}

impl Course {
    /// The record when so many clocks have been fed.
    pub fn standing(&self, clocks: usize) -> Record {
        Record {
            open: facts(self.part, &self.record, &self.samples[..clocks]),
            ..self.record
        }
    }

    /// Where the transaction stands when so many clocks have been fed.
    pub fn spot(&self, clocks: usize) -> Spot {
        Spot::of(self.part, &self.standing(clocks))
    }

    /// The answer to the whole transaction.
    pub fn answer(&self) -> Answer {
        let reading = read(self.part, &self.record, &self.samples);
        judge(self.part, &self.record, &reading)
    }
}

/// A ready record with a small memory: what comes in chunks is looked at many times.
fn small_record(rng: &mut Rng, part: &Part) -> Record {
    let mut record = ready_record(rng, part);
    record.n = part.least_n + rng.pick(&[0, 0, 0, 1, 1, 2, 3]);
    record
}

/// Mode and opcode of every command of the part for which this holds.
fn commands(part: &Part, wanted: impl Fn(u8, u8, &Command) -> bool) -> Vec<(u8, u8)> {
    let mut list = Vec::new();
    for &mode in part.modes() {
        for opcode in part.opcodes() {
            let command = part.command(opcode, mode);
            if command.is_some_and(|command| wanted(mode, opcode, &command)) {
                list.push((mode, opcode));
            }
        }
    }
    list
}

/// An address that the command may not have, if there is one.
fn bad_address(rng: &mut Rng, part: &Part, record: &Record, opcode: u8) -> u32 {
    let drawn = rng.below(1 << 24) as u32;
    let first = match part.family {
        Family::Mram if opcode == 0x65 => rng.pick(&[0x01, 0x31, 0x47, 0x100, 0x80_0000]),
        Family::Mram if in_area(part, opcode) => part.area_bytes as u32,
        Family::Mram => 1 << record.n,
        Family::Psram => 1 + rng.below(15) as u32,
    };
    let address = rng.pick(&[first, first, drawn, drawn | first]);
    if allows_address(part, record, opcode, address) {
        first
    } else {
        address
    }
}

/// A course that stands in this phase on so many wires at least once and goes on
/// behind it.
pub fn through(rng: &mut Rng, part: &'static Part, phase: Phase, wires: u8) -> Course {
    let mut record = small_record(rng, part);
    if let Phase::Rest(Why::Unknown) = phase {
        let unknown = |opcode: &u8| part.command(*opcode, wires).is_none();
        let list: Vec<u8> = (0..=255).filter(unknown).collect();
        record.mode = wires;
        let opcode = rng.pick(&list);
        let mut samples = compose(rng, part, &record, opcode, &[], &Plan::sound());
        let more = 2 + rng.below(5);
        push_idle(rng, &mut samples, more, true);
        return Course {
            part,
            record,
            samples,
        };
    }
    let list = commands(part, |mode, opcode, command| {
        let on_wires = command.rest_wires == wires;
        match phase {
            Phase::Command => mode == wires,
            Phase::Address => on_wires && command.address,
            Phase::Wait => on_wires && command.wait != Wait::Clocks(0),
            Phase::Read => {
                on_wires
                    && matches!(
                        command.data,
                        Data::ReadFixed(_) | Data::ReadMapped | Data::ReadRunning
                    )
            }
            Phase::Memory => {
                on_wires && command.data == Data::WriteRunning && !in_area(part, opcode)
            }
            Phase::Area => on_wires && command.data == Data::WriteRunning && in_area(part, opcode),
            Phase::Register | Phase::Rest(Why::PastWrite) => {
                on_wires && matches!(command.data, Data::WriteFixed(_))
            }
            Phase::Rest(Why::Asleep) => mode == wires && opcode != 0xAB,
            Phase::Rest(Why::Address) => {
                let any_allowed = part.family == Family::Psram && !matches!(opcode, 0xB1 | 0xB5);
                on_wires && command.address && !any_allowed
            }
            Phase::Rest(Why::PastRead) => {
                on_wires && matches!(command.data, Data::ReadFixed(_) | Data::ReadMapped)
            }
            Phase::Rest(Why::PastCommand) => on_wires && command.data == Data::None,
            Phase::Rest(Why::Unknown) => false,
        }
    });
    let (mode, opcode) = rng.pick(&list);
    record.mode = mode;
    record.asleep = phase == Phase::Rest(Why::Asleep);
    record.armed |= opcode == 0x99 && rng.chance(1, 2);
    if part.family == Family::Mram {
        record.latch = rng.chance(4, 5);
        // Two clocks of wait have a place between them.
        record.configurations[1] = record.configurations[1].max(2);
    }
    let mut plan = Plan {
        bytes: Some(2 + rng.below(4)),
        bad_value: rng.chance(1, 5),
        ..Plan::sound()
    };
    if phase == Phase::Rest(Why::Address) {
        plan.address = Some(bad_address(rng, part, &record, opcode));
    }
    let mut samples = compose(rng, part, &record, opcode, &[], &plan);
    if let Phase::Rest(_) = phase {
        // A read of fixed size may have been cut by its draw.
        let more = 2 + rng.below(5);
        push_idle(rng, &mut samples, more, true);
    }
    Course {
        part,
        record,
        samples,
    }
}

/// A course that in most draws gets this answer.
fn draft(rng: &mut Rng, part: &'static Part, answer: Answer) -> Course {
    let rest = |rng: &mut Rng, why: Why| {
        let wires = rng.pick(part.modes());
        through(rng, part, Phase::Rest(why), wires)
    };
    let whys: &[Why] = match answer {
        Answer::Unknown => &[Why::Unknown],
        Answer::Asleep => &[Why::Asleep],
        Answer::Address => &[Why::Address],
        Answer::Long => &[Why::PastCommand, Why::PastWrite],
        _ => &[],
    };
    if !whys.is_empty() {
        let why = rng.pick(whys);
        return rest(rng, why);
    }
    let mut record = small_record(rng, part);
    let is_mram = part.family == Family::Mram;
    let list = commands(part, |_, opcode, command| match answer {
        Answer::Latch => matches!(command.data, Data::WriteFixed(_) | Data::WriteRunning),
        Answer::Protected => command.data == Data::WriteRunning,
        Answer::Reserved => matches!(opcode, 0x01 | 0x87 | 0xB1),
        Answer::Unarmed => opcode == 0x99,
        _ => true,
    });
    let (mode, opcode) = rng.pick(&list);
    record.mode = mode;
    match answer {
        Answer::Done => record.armed |= opcode == 0x99,
        Answer::Unarmed => record.armed = false,
        Answer::Latch => {
            record.latch = false;
            if is_mram {
                record.configurations[3] = 0x04 | rng.pick(&[0, 2]);
            }
        }
        Answer::Protected => {
            record.status |= 0x1C;
            record.area_protection = 0xFF;
        }
        _ => {}
    }
    let plan = Plan {
        bad_value: answer == Answer::Reserved,
        ..Plan::sound()
    };
    let mut samples = compose(rng, part, &record, opcode, &[], &plan);
    if answer == Answer::Short {
        let kept = rng.below(samples.len());
        samples.truncate(kept);
    }
    Course {
        part,
        record,
        samples,
    }
}

/// A course that gets this answer, one that the part can give.
pub fn answered(rng: &mut Rng, part: &'static Part, answer: Answer) -> Course {
    loop {
        let course = draft(rng, part, answer);
        if course.answer() == answer {
            return course;
        }
    }
}
