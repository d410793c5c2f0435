//! Single calls on a record with a transaction open, or with facts of one that no
//! chunks reach: the lists of what made probes have to show, the way to each, and
//! what a record shows.

use crate::courses::{through, Course};
use crate::device::{registers_fit, Record, MOST_CLOCKS};
use crate::facts::{reachable, Open};
use crate::parts::Part;
use crate::probe::{Call, Probe, CALLS};
use crate::reading::read;
use crate::records::ready_record;
use crate::rng::Rng;
use crate::spoil::whole_probe;
use crate::spots::{Phase, Spot, Why};
use crate::table::Data;
use crate::wires::clocks_for_bits;

/// One of the facts of an open transaction.
#[derive(Clone, Copy, PartialEq, Eq, PartialOrd, Ord, Debug)]
pub enum Fact {
    Clocks,
    Opcode,
    Address,
    Number,
    Value,
}

impl Fact {
    pub fn word(self) -> &'static str {
        match self {
            Fact::Clocks => "clocks",
            Fact::Opcode => "opcode",
            Fact::Address => "address",
            Fact::Number => "number",
            Fact::Value => "value",
        }
    }
}

const FACTS: [Fact; 5] = [
    Fact::Clocks,
    Fact::Opcode,
    Fact::Address,
    Fact::Number,
    Fact::Value,
];

/// One fact that is wrong in a record in which all else is right.
#[derive(Clone, Copy, PartialEq, Eq, PartialOrd, Ord, Debug)]
pub enum Damage {
    /// It is not 0 though none is open.
    NoneOpen(Fact),
    /// One clock more than a transaction may have, or many more.
    Clocks(bool),
    /// An opcode while the command is cut.
    Opcode,
    /// An address while command or address are cut.
    AddressEarly,
    /// An address where the command has none, or 5 or 6 is decided.
    AddressNone,
    /// An address of more than 24 bits.
    AddressLarge,
    /// A number one above the largest of the bits that have come, on so many wires.
    Above(Phase, u8),
    /// A number before the first clock of what is gathered.
    Border(Phase),
    /// A number where nothing is gathered.
    Stray(Phase),
    /// A number of more bits than an address has.
    Far(Phase),
    /// A value byte that has not come.
    Value(Phase),
}

impl Damage {
    /// All that probes of this part have to show.
    pub fn list(part: &Part) -> Vec<Damage> {
        let mut list: Vec<Damage> = FACTS.map(Damage::NoneOpen).to_vec();
        list.extend([Damage::Clocks(false), Damage::Clocks(true), Damage::Opcode]);
        list.extend([
            Damage::AddressEarly,
            Damage::AddressNone,
            Damage::AddressLarge,
        ]);
        for phase in Phase::list(part) {
            if phase.gathers() {
                list.extend(
                    phase
                        .wires(part)
                        .iter()
                        .map(|&wires| Damage::Above(phase, wires)),
                );
                list.extend([Damage::Border(phase), Damage::Far(phase)]);
            } else {
                list.push(Damage::Stray(phase));
            }
            list.push(Damage::Value(phase));
        }
        list
    }

    /// Whether it may be in many phases, so that one part will do for each.
    pub fn is_on_any_part(self) -> bool {
        matches!(
            self,
            Damage::Border(_) | Damage::Stray(_) | Damage::Far(_) | Damage::Value(_)
        )
    }

    /// What damages of this sort are.
    pub fn kind(self) -> String {
        String::from(match self {
            Damage::NoneOpen(_) => "none open, but not 0",
            Damage::Clocks(_) => "too many clocks",
            Damage::Opcode => "an opcode",
            Damage::AddressEarly | Damage::AddressNone | Damage::AddressLarge => "an address",
            Damage::Above(..) => "a number one too large in",
            Damage::Border(_) => "a number at the beginning of",
            Damage::Stray(_) => "a number in",
            Damage::Far(_) => "a number of more than 24 bits in",
            Damage::Value(_) => "a value byte that has not come in",
        })
    }

    pub fn word(self) -> String {
        match self {
            Damage::NoneOpen(fact) => String::from(fact.word()),
            Damage::Clocks(false) => String::from("65,536"),
            Damage::Clocks(true) => String::from("more"),
            Damage::Opcode | Damage::AddressEarly => String::from("too early"),
            Damage::AddressNone => String::from("where there is none"),
            Damage::AddressLarge => String::from("of more than 24 bits"),
            Damage::Above(phase, wires) => format!("{} on {wires}", phase.word()),
            Damage::Border(phase)
            | Damage::Stray(phase)
            | Damage::Far(phase)
            | Damage::Value(phase) => String::from(phase.word()),
        }
    }
}

/// All phases and wires of this part in which a largest number has to be shown.
pub fn largest_list(part: &Part) -> Vec<(Phase, u8)> {
    let mut list = Vec::new();
    for phase in Phase::list(part) {
        if phase.gathers() {
            list.extend(phase.wires(part).into_iter().map(|wires| (phase, wires)));
        }
    }
    list
}

/// Whether the open transaction of a valid record has the largest number that its
/// bits can have.
pub fn has_largest(spot: Spot, record: &Record) -> bool {
    spot.bits() > 0 && u64::from(record.open.number) + 1 == 1 << spot.bits()
}

/// The same facts with one of them as given.
fn with(record: &Record, change: impl Fn(&mut Open)) -> Record {
    let mut changed = *record;
    change(&mut changed.open);
    changed
}

/// What is wrong with the facts of a record, if it is one thing alone.
pub fn damages(part: &Part, record: &Record) -> Vec<Damage> {
    let open = record.open;
    let mut list = Vec::new();
    if !part.allows_n(record.n) || !registers_fit(part, record) {
        return list;
    }
    if !open.flag {
        let wrong = [
            (Fact::Clocks, open.clocks != 0),
            (Fact::Opcode, open.opcode != 0),
            (Fact::Address, open.address != 0),
            (Fact::Number, open.number != 0),
            (Fact::Value, open.value != [0; 8]),
        ];
        let wrong = wrong.iter().filter(|(_, is_wrong)| *is_wrong);
        let wrong: Vec<Fact> = wrong.map(|&(fact, _)| fact).collect();
        if let [fact] = wrong[..] {
            list.push(Damage::NoneOpen(fact));
        }
        return list;
    }
    if reachable(part, record) {
        return list;
    }
    let fits = |change: &dyn Fn(&mut Open)| reachable(part, &with(record, change));
    if open.clocks as usize > MOST_CLOCKS {
        if fits(&|open| open.clocks = MOST_CLOCKS as u32) {
            list.push(Damage::Clocks(open.clocks as usize > MOST_CLOCKS + 1));
        }
        return list;
    }
    let spot = Spot::of(part, record);
    let phase = spot.phase;
    if phase == Phase::Command && fits(&|open| open.opcode = 0) {
        list.push(Damage::Opcode);
    }
    if open.address >> 24 != 0 && fits(&|open| open.address &= 0xFF_FFFF) {
        list.push(Damage::AddressLarge);
    }
    let command = part.command(open.opcode, record.mode);
    let none = phase == Phase::Rest(Why::Asleep) || !command.is_some_and(|found| found.address);
    let early = matches!(phase, Phase::Command | Phase::Address);
    if (none || early) && fits(&|open| open.address = 0) {
        list.push(if early {
            Damage::AddressEarly
        } else {
            Damage::AddressNone
        });
    }
    if fits(&|open| open.number = 0) {
        if u64::from(open.number) == 1 << spot.bits() {
            list.push(match phase {
                _ if !phase.gathers() => Damage::Stray(phase),
                _ if spot.clocks == 0 => Damage::Border(phase),
                _ => Damage::Above(phase, spot.wires),
            });
        }
        if open.number >> 24 != 0 {
            list.push(Damage::Far(phase));
        }
    }
    if (0..8).any(|come| fits(&|open| open.value[come..].fill(0))) {
        list.push(Damage::Value(phase));
    }
    list
}

/// A course and the clocks after which it stands in this phase, on so many wires and
/// where this holds; there must be such a place.
fn stand(
    rng: &mut Rng,
    part: &'static Part,
    phase: Phase,
    wires: u8,
    wanted: impl Fn(&Record, Spot) -> bool,
) -> (Course, usize) {
    loop {
        let course = through(rng, part, phase, wires);
        let fits = |&clocks: &usize| {
            let record = course.standing(clocks);
            let spot = Spot::of(part, &record);
            spot.phase == phase && spot.wires == wires && wanted(&record, spot)
        };
        let places: Vec<usize> = (0..=course.samples.len()).filter(fits).collect();
        if !places.is_empty() {
            let clocks = rng.pick(&places);
            return (course, clocks);
        }
    }
}

/// The call on this record; what a feed is given goes on with the samples.
fn call_on(
    rng: &mut Rng,
    part: &'static Part,
    call: Call,
    record: Record,
    samples: &[u8],
) -> Probe {
    let samples = match call {
        Call::Feed => {
            let clocks = rng.below(samples.len() + 1);
            let all = rng.chance(1, 2);
            samples[..if all { samples.len() } else { clocks }].to_vec()
        }
        Call::Transact => samples.to_vec(),
        _ => Vec::new(),
    };
    whole_probe(rng, call, part, record, samples)
}

/// A call on a valid record that stands in this phase.
pub fn standing_probe(rng: &mut Rng, part: &'static Part, phase: Phase, call: Call) -> Probe {
    let wires = rng.pick(&phase.wires(part));
    let (course, clocks) = stand(rng, part, phase, wires, |_, _| true);
    let mut record = course.standing(clocks);
    let samples = &course.samples[clocks..];
    if rng.chance(1, 3) {
        go_far(rng, part, &mut record, samples.len());
    }
    call_on(rng, part, call, record, samples)
}

/// Lets a burst or the rest have come much further, at the same place in its byte: a
/// burst has then gone round its group or all of memory.
fn go_far(rng: &mut Rng, part: &Part, record: &mut Record, clocks_to_come: usize) {
    let spot = Spot::of(part, record);
    let command = part.command(record.open.opcode, record.mode);
    let runs = command.is_some_and(|command| {
        matches!(command.data, Data::ReadRunning | Data::WriteRunning)
            && matches!(spot.phase, Phase::Read | Phase::Memory | Phase::Area)
    });
    if runs || matches!(spot.phase, Phase::Rest(_)) {
        let byte_clocks = clocks_for_bits(8, spot.wires);
        let clocks = record.open.clocks as usize;
        let most_bytes = (MOST_CLOCKS - clocks - clocks_to_come) / byte_clocks;
        let around = rng.pick(&[15, 32, 63, 256, 510, 1023, 1 << record.n]) + rng.below(4);
        let any = rng.below(most_bytes + 1);
        let bytes = rng.pick(&[around, around, any]).min(most_bytes);
        record.open.clocks += (bytes * byte_clocks) as u32;
    }
}

/// The same anywhere in any transaction.
pub fn any_standing(rng: &mut Rng, part: &'static Part, call: Call) -> Probe {
    let phase = rng.pick(&Phase::list(part));
    standing_probe(rng, part, phase, call)
}

/// A call on a valid record with the largest number there can be.
pub fn largest_probe(rng: &mut Rng, part: &'static Part, phase: Phase, wires: u8) -> Probe {
    let call = rng.pick(&[Call::Feed, Call::Feed, Call::Close]);
    let (course, clocks) = stand(rng, part, phase, wires, |_, spot| spot.clocks > 0);
    let mut record = course.standing(clocks);
    let bits = Spot::of(part, &record).bits();
    record.open.number = (1 << bits) - 1;
    call_on(rng, part, call, record, &course.samples[clocks..])
}

/// A value byte that is not 0, mostly with one bit alone.
fn not_0(rng: &mut Rng) -> u8 {
    let bit = 1 << rng.below(8);
    rng.pick(&[1, bit, bit, 0xFF])
}

/// The phases of this part in which the damage can be.
fn phases(part: &Part, damage: Damage) -> Vec<Phase> {
    let mut list = Phase::list(part);
    list.retain(|&phase| match damage {
        Damage::Opcode => phase == Phase::Command,
        Damage::AddressEarly => matches!(phase, Phase::Command | Phase::Address),
        Damage::AddressNone => matches!(
            phase,
            Phase::Rest(Why::Asleep | Why::Unknown | Why::PastCommand)
        ),
        Damage::AddressLarge => {
            matches!(
                phase,
                Phase::Wait | Phase::Memory | Phase::Rest(Why::Address)
            )
        }
        Damage::Above(wanted, _)
        | Damage::Border(wanted)
        | Damage::Stray(wanted)
        | Damage::Far(wanted)
        | Damage::Value(wanted) => phase == wanted,
        // Any clocks of rest fit, as many as they are.
        Damage::NoneOpen(_) | Damage::Clocks(_) => phase == Phase::Rest(Why::Unknown),
    });
    list
}

/// A call on a record in which one fact is wrong.
pub fn damaged_probe(rng: &mut Rng, part: &'static Part, damage: Damage) -> Probe {
    let mut call = rng.pick(&CALLS);
    // A feed would be refused by 1 for it.
    if matches!(damage, Damage::Clocks(_)) && call == Call::Feed {
        call = Call::Close;
    }
    damaged_call(rng, part, damage, call)
}

/// The same with a call that is given.
pub fn damaged_call(rng: &mut Rng, part: &'static Part, damage: Damage, call: Call) -> Probe {
    if let Damage::NoneOpen(fact) = damage {
        let mut record = ready_record(rng, part);
        record.n = part.least_n;
        let open = &mut record.open;
        match fact {
            Fact::Clocks => open.clocks = rng.pick(&[1, 8, 65_535, 65_536, u32::MAX]),
            Fact::Opcode => open.opcode = not_0(rng),
            Fact::Address => open.address = rng.pick(&[1, 0xFF_FFFF, 0x100_0000]),
            Fact::Number => open.number = rng.pick(&[1, 0x7F, u32::MAX]),
            Fact::Value => open.value[rng.below(8)] = not_0(rng),
        }
        return call_on(rng, part, call, record, &[0, 1, 0]);
    }
    let phase = rng.pick(&phases(part, damage));
    let wires = match damage {
        Damage::Above(_, wires) => wires,
        _ => rng.pick(&phase.wires(part)),
    };
    let (course, clocks) = stand(rng, part, phase, wires, |record, spot| match damage {
        Damage::Above(..) => spot.clocks > 0,
        Damage::Border(_) => spot.clocks == 0,
        // The serial number leaves no place behind it.
        Damage::Value(Phase::Rest(Why::PastWrite)) => record.open.opcode != 0xC2,
        _ => true,
    });
    let mut record = course.standing(clocks);
    let spot = Spot::of(part, &record);
    let open = &mut record.open;
    let some_address = 1 + rng.below(0xFF_FFFF) as u32;
    match damage {
        Damage::Clocks(many) => {
            open.clocks = if many {
                rng.pick(&[65_537, 131_072, 1 << 31, u32::MAX])
            } else {
                65_536
            };
        }
        Damage::Opcode => open.opcode = not_0(rng),
        Damage::AddressEarly | Damage::AddressNone => {
            open.address = rng.pick(&[1, 0x80_0000, some_address]);
        }
        Damage::AddressLarge => {
            open.address |= rng.pick(&[0x100_0000, 0x100_0000, 0x8000_0000, 0xFF00_0000]);
        }
        Damage::Above(..) | Damage::Border(_) | Damage::Stray(_) => open.number = 1 << spot.bits(),
        Damage::Far(_) => open.number |= rng.pick(&[0x100_0000, 0x8000_0000, 0xFF00_0000]),
        Damage::Value(_) => {
            let come = match phase {
                Phase::Register | Phase::Rest(Why::PastWrite) => {
                    let samples = &course.samples[..clocks];
                    read(part, &course.record, samples).data.len()
                }
                _ => 0,
            };
            // The next one that would come, or any.
            let at = if rng.chance(1, 2) {
                come
            } else {
                come + rng.below(8 - come)
            };
            open.value[at] = not_0(rng);
        }
        Damage::NoneOpen(_) => {}
    }
    call_on(rng, part, call, record, &course.samples[clocks..])
}
