//! What can be wrong with an image so that no valid record has it: the list of what
//! made calls have to show, the way to each, and what an image shows.

use std::collections::{BTreeMap, BTreeSet};

use crate::compose::{compose, Plan};
use crate::device::{registers_fit, Record};
use crate::image::{image_of, place, spare_places, spelled, valid, FLAGS, IMAGE_BYTES};
use crate::parts::{find, Family, Part, FIRST_FREE_NUMBER, P, PARTS};
use crate::probe::{Call, Probe, CALLS, MOST_IMAGE_BYTES};
use crate::records::ready_record;
use crate::rng::Rng;
use crate::spoil::whole_probe;
use crate::spots::Phase;
use crate::standing::{any_standing, damaged_call, damages, Damage};

/// A field of the registers that can be out of its range.
#[derive(Clone, Copy, PartialEq, Eq, PartialOrd, Ord, Debug)]
pub enum Field {
    Status,
    AreaProtection,
    /// Configurations 1 to 4 are 0 to 3 here, as in a record.
    Configuration(usize),
    Mr0,
    Mode,
    Latch,
    Asleep,
    Toggle,
    /// A byte of the identity.
    Identity(usize),
    Unique,
    Serial,
}

impl Field {
    /// All that can be out of range on this part.
    pub fn list(part: &Part) -> Vec<Field> {
        let mut list = vec![Field::Status, Field::Mr0, Field::Mode];
        list.extend((0..4).map(Field::Configuration));
        match part.family {
            Family::Mram => {
                list.push(Field::Toggle);
                list.extend((part.identity_bytes..8).map(Field::Identity));
            }
            Family::Psram => list.extend([
                Field::AreaProtection,
                Field::Latch,
                Field::Asleep,
                Field::Unique,
                Field::Serial,
            ]),
        }
        list
    }

    pub fn word(self) -> String {
        match self {
            Field::Status => String::from("status"),
            Field::AreaProtection => String::from("area protection"),
            Field::Configuration(at) => format!("configuration {}", at + 1),
            Field::Mr0 => String::from("mode register"),
            Field::Mode => String::from("bus mode"),
            Field::Latch => String::from("latch"),
            Field::Asleep => String::from("asleep"),
            Field::Toggle => String::from("toggle"),
            Field::Identity(at) => format!("identity byte {at}"),
            Field::Unique => String::from("unique number"),
            Field::Serial => String::from("serial number"),
        }
    }

    /// The ways in which the field can be wrong on this part that are told apart: bits
    /// that are up, bit 2 of configuration 4 that is down, codes and modes. 0 stands
    /// for anything where there is one way alone.
    pub fn ways(self, part: &Part) -> Vec<u8> {
        match (self, part.family) {
            (Field::Status, Family::Mram) => vec![0x80, 0x40, 0x02, 0x01],
            (Field::Configuration(1), Family::Mram) => vec![0x80, 0x40, 0x20, 0x10],
            (Field::Configuration(2), Family::Mram) => vec![0x08, 0x07],
            (Field::Configuration(3), Family::Mram) => {
                vec![0x80, 0x40, 0x20, 0x10, 0x08, 0x04, 0x03]
            }
            (Field::Mr0, Family::Psram) => vec![0x80, 0x10, 0x08, 0x04, 0x03],
            (Field::Mode, Family::Mram) => vec![0, 3, 5, 255],
            (Field::Mode, Family::Psram) => vec![0, 2, 3, 255],
            _ => vec![0],
        }
    }

    /// Puts something into the field that the part does not allow, in one of its ways.
    fn spoil(self, rng: &mut Rng, part: &Part, way: u8, record: &mut Record) {
        let bit = 1u8 << rng.below(8);
        let at = rng.below(8);
        match (self, part.family) {
            (Field::Status, Family::Mram) => record.status |= way,
            (Field::Status, Family::Psram) => record.status = bit,
            (Field::AreaProtection, _) => record.area_protection = bit,
            (Field::Configuration(number), Family::Mram) => {
                let value = &mut record.configurations[number];
                let codes = part.wrap_lengths.len();
                match (number, way) {
                    (0, _) => *value = bit,
                    (2, 0x07) => *value = *value & 0xF8 | (codes + at % (8 - codes)) as u8,
                    (3, 0x04) => *value &= !0x04,
                    _ => *value |= way,
                }
            }
            (Field::Configuration(number), Family::Psram) => record.configurations[number] = bit,
            (Field::Mr0, Family::Mram) => record.mr0 = rng.pick(&[bit, P.fresh_mr0]),
            (Field::Mr0, Family::Psram) => record.mr0 |= way,
            (Field::Mode, _) => record.mode = way,
            (Field::Latch, _) => record.latch = true,
            (Field::Asleep, _) => record.asleep = true,
            (Field::Toggle, _) => record.toggle = true,
            (Field::Identity(at), _) => record.identity[at] = bit,
            (Field::Unique, _) => record.unique[at] = bit,
            (Field::Serial, _) => record.serial[at] = bit,
        }
    }

    /// The way in which the field of this record is wrong, if it is one alone.
    fn way(self, part: &Part, record: &Record) -> Option<u8> {
        let ways = self.ways(part);
        let wrong = |way: &&u8| {
            let way = **way;
            match (self, part.family) {
                (Field::Status, Family::Mram) => record.status & 0xC3 == way,
                (Field::Configuration(number), Family::Mram) => {
                    let value = record.configurations[number];
                    let code = usize::from(value & 0x07);
                    match (number, way) {
                        (1, _) => value & 0xF0 == way,
                        (2, 0x07) => value & 0x08 == 0 && code >= part.wrap_lengths.len(),
                        (2, _) => value & 0x08 == way && code < part.wrap_lengths.len(),
                        (3, 0x04) => value & 0xFC == 0 && value & 0x03 != 3,
                        (3, 0x03) => value == 0x07,
                        (3, _) => value & 0xFC == 0x04 | way && value & 0x03 != 3,
                        _ => true,
                    }
                }
                (Field::Mr0, Family::Psram) if way == 0x03 => {
                    record.mr0 & 0x9C == 0 && record.mr0 & 0x03 == 3
                }
                (Field::Mr0, Family::Psram) => record.mr0 & 0x9C == way && record.mr0 & 0x03 != 3,
                (Field::Mode, _) => record.mode == way,
                _ => true,
            }
        };
        ways.iter().find(wrong).copied()
    }

    /// The records that differ in this field alone and in which it may be in its range.
    fn mended(self, part: &Part, record: &Record) -> Vec<Record> {
        let with = |change: &dyn Fn(&mut Record)| -> Vec<Record> {
            let mut mended = *record;
            change(&mut mended);
            vec![mended]
        };
        match self {
            Field::Status if part.family == Family::Mram => with(&|mended| mended.status &= 0x3C),
            Field::Status => with(&|mended| mended.status = 0),
            Field::AreaProtection => with(&|mended| mended.area_protection = 0),
            Field::Configuration(at) => {
                // The wait is in the low bits of configuration 2.
                let fresh = part.fresh_configurations[at];
                let low = record.configurations[at] & 0x0F;
                [fresh, low]
                    .iter()
                    .flat_map(|&value| with(&|mended| mended.configurations[at] = value))
                    .collect()
            }
            Field::Mr0 => with(&|mended| mended.mr0 = part.fresh_mr0),
            Field::Mode => part
                .modes()
                .iter()
                .flat_map(|&mode| with(&|mended| mended.mode = mode))
                .collect(),
            Field::Latch => with(&|mended| mended.latch = false),
            Field::Asleep => with(&|mended| mended.asleep = false),
            Field::Toggle => with(&|mended| mended.toggle = false),
            Field::Identity(at) => with(&|mended| mended.identity[at] = 0),
            Field::Unique => with(&|mended| mended.unique = [0; 8]),
            Field::Serial => with(&|mended| mended.serial = [0; 8]),
        }
    }
}

/// One thing that is wrong with an image in which all else is right.
#[derive(Clone, Copy, PartialEq, Eq, PartialOrd, Ord, Debug)]
pub enum Flaw {
    /// So many bytes, and those that are there as they should be.
    Length(usize),
    /// More bytes than one too many.
    Longer,
    /// A number that no part has.
    Part(u8),
    /// An n just below all that the part offers, just above, or far off.
    Below,
    Above,
    Far,
    /// A flag that is neither 0 nor 1.
    Flag(usize, u8),
    /// A byte that no field has and that is not 0.
    Spare(usize),
    /// A register that is out of its range, in this way.
    Field(Field, u8),
    /// Facts of an open transaction, or of none, that no chunks reach.
    Fact(Damage),
}

/// Lengths that no image has.
pub const LENGTHS: [usize; 3] = [0, IMAGE_BYTES - 1, IMAGE_BYTES + 1];
/// Numbers that no part has.
pub const NO_PARTS: [u8; 3] = [0, FIRST_FREE_NUMBER, 255];
/// What no flag is.
pub const NO_FLAGS: [u8; 2] = [2, 255];

/// A flaw on a part, for a call.
pub type Flawed = (&'static Part, Flaw, Call);

/// The things of a group with each of the calls at least once, and each of the things
/// at least once. What goes with what is drawn.
fn with_calls(rng: &mut Rng, mut group: Things) -> Vec<Flawed> {
    let mut calls = CALLS;
    rng.shuffle(&mut calls);
    rng.shuffle(&mut group);
    (0..group.len().max(calls.len()))
        .map(|at| {
            let (part, flaw) = group[at % group.len()];
            (part, flaw, calls[at % calls.len()])
        })
        .collect()
}

/// What groups of damages are asked for with each call.
#[derive(Clone, Copy, PartialEq, Eq, PartialOrd, Ord, Debug)]
pub enum Group {
    /// None open, but this fact.
    NoneOpen(&'static str),
    /// One open, and this fact wrong.
    Open(&'static str),
    /// A number one too large in what is gathered.
    Above(&'static str),
}

impl Group {
    pub fn list() -> Vec<Group> {
        const FACTS: [&str; 5] = ["clocks", "opcode", "address", "number", "value"];
        let mut list = FACTS.map(Group::NoneOpen).to_vec();
        list.extend(FACTS.map(Group::Open));
        list.extend(["command", "address", "write data"].map(Group::Above));
        list
    }

    /// The groups that a damage is in.
    pub fn of(damage: Damage) -> Vec<Group> {
        match damage {
            Damage::NoneOpen(fact) => vec![Group::NoneOpen(fact.word())],
            Damage::Clocks(_) => vec![Group::Open("clocks")],
            Damage::Opcode => vec![Group::Open("opcode")],
            Damage::AddressEarly | Damage::AddressNone | Damage::AddressLarge => {
                vec![Group::Open("address")]
            }
            Damage::Above(phase, _) => {
                let gathered = match phase {
                    Phase::Command => "command",
                    Phase::Address => "address",
                    _ => "write data",
                };
                vec![Group::Open("number"), Group::Above(gathered)]
            }
            Damage::Border(_) | Damage::Stray(_) | Damage::Far(_) => vec![Group::Open("number")],
            Damage::Value(_) => vec![Group::Open("value")],
        }
    }

    pub fn kind(self) -> &'static str {
        match self {
            Group::NoneOpen(_) => "a fact with none open",
            Group::Open(_) => "a fact with one open",
            Group::Above(_) => "a number one too large in",
        }
    }

    pub fn word(self) -> &'static str {
        match self {
            Group::NoneOpen(word) | Group::Open(word) | Group::Above(word) => word,
        }
    }
}

/// Things of which each call has to show at least one.
type Things = Vec<(&'static Part, Flaw)>;

/// Each register in each of its ways; a way that parts of a family share is on one of
/// them, and every part has each of its registers.
fn groups_of_registers(rng: &mut Rng) -> Vec<Things> {
    let fields: BTreeSet<Field> = PARTS.into_iter().flat_map(Field::list).collect();
    let mut groups = Vec::new();
    // The bytes of the identity are one group.
    let mut identity = Things::new();
    for field in fields {
        let mut group = Things::new();
        let mut turn = rng.below(2);
        for part in PARTS {
            if !Field::list(part).contains(&field) {
                continue;
            }
            let ways = field.ways(part);
            let shared = part.family == Family::Mram && ways.len() > 2;
            for (at, way) in ways.into_iter().enumerate() {
                if !shared || at % 2 == turn {
                    group.push((part, Flaw::Field(field, way)));
                }
            }
            if shared {
                turn = 1 - turn;
            }
        }
        if let Field::Identity(_) = field {
            identity.extend(group);
        } else {
            groups.push(group);
        }
    }
    groups.push(identity);
    groups
}

/// Each damage on each part; of what may be in many phases each is on one part.
fn groups_of_facts(rng: &mut Rng) -> Vec<Things> {
    let mut groups: BTreeMap<(Group, bool), Things> = BTreeMap::new();
    for part in PARTS {
        for damage in Damage::list(part) {
            let (flaw, any) = (Flaw::Fact(damage), damage.is_on_any_part());
            let Some(&group) = Group::of(damage).last() else {
                continue;
            };
            let list = groups.entry((group, any)).or_default();
            let place = list.iter().position(|&(_, other)| other == flaw);
            match place.filter(|_| any) {
                Some(at) if rng.chance(1, 2) => list[at].0 = part,
                Some(_) => {}
                None => list.push((part, flaw)),
            }
        }
    }
    groups.into_values().collect()
}

impl Flaw {
    /// All that calls over images have to show: each call each flaw of every group,
    /// each part each of its registers and what may be wrong with clocks, opcode,
    /// address and the number; of the other facts each phase on some part.
    pub fn list(rng: &mut Rng) -> Vec<Flawed> {
        let on_parts = |flaw: Flaw| PARTS.map(|part| (part, flaw)).to_vec();
        let mut groups: Vec<Things> = Vec::new();
        groups.extend(LENGTHS.map(|bytes| on_parts(Flaw::Length(bytes))));
        groups.extend(NO_PARTS.map(|number| on_parts(Flaw::Part(number))));
        groups.extend([Flaw::Longer, Flaw::Below, Flaw::Above, Flaw::Far].map(on_parts));
        for at in FLAGS {
            groups.extend(NO_FLAGS.map(|byte| on_parts(Flaw::Flag(at, byte))));
        }
        groups.extend(groups_of_registers(rng));
        groups.extend(groups_of_facts(rng));
        let spare = |at: usize| (rng.pick(&PARTS), Flaw::Spare(at));
        groups.push(spare_places().into_iter().map(spare).collect());
        let of_group = |group| with_calls(rng, group);
        groups.into_iter().flat_map(of_group).collect()
    }

    pub fn kind(self) -> &'static str {
        match self {
            Flaw::Length(_) | Flaw::Longer => "its bytes",
            Flaw::Part(_) => "its part",
            Flaw::Below | Flaw::Above | Flaw::Far => "its n",
            Flaw::Flag(..) => "a flag",
            Flaw::Spare(_) => "a spare byte",
            Flaw::Field(..) => "a register",
            Flaw::Fact(_) => "a fact",
        }
    }

    pub fn word(self) -> String {
        match self {
            Flaw::Length(bytes) => bytes.to_string(),
            Flaw::Longer => String::from("more"),
            Flaw::Part(number) => number.to_string(),
            Flaw::Below => String::from("below"),
            Flaw::Above => String::from("above"),
            Flaw::Far => String::from("far"),
            Flaw::Flag(at, byte) => format!("{at} {byte}"),
            Flaw::Spare(at) => at.to_string(),
            Flaw::Field(field, _) => field.word(),
            Flaw::Fact(damage) => format!("{} {}", damage.kind(), damage.word()),
        }
    }

    /// Spoils a valid image of this part. Facts are not spoiled here.
    pub fn spoil(self, rng: &mut Rng, part: &Part, image: &mut Vec<u8>) {
        let bit = 1u8 << rng.below(8);
        match self {
            Flaw::Length(bytes) => image.resize(bytes, 0),
            Flaw::Longer => {
                let bytes = rng.pick(&[130, 136, 192, 255, MOST_IMAGE_BYTES]);
                image.resize(bytes, 0);
            }
            Flaw::Part(number) => image[place::PART] = number,
            Flaw::Below => image[place::N] = part.least_n - 1,
            Flaw::Above => image[place::N] = part.most_n + 1,
            Flaw::Far => image[place::N] = rng.pick(&[0, 1, 8, 24, 32, 63, 64, 74, 138, 255]),
            Flaw::Flag(at, byte) => image[at] = byte,
            Flaw::Spare(at) => image[at] = rng.pick(&[1, bit, bit, 255]),
            Flaw::Field(field, way) => {
                if let Some(mut record) = spelled(image) {
                    field.spoil(rng, part, way, &mut record);
                    *image = image_of(&record);
                }
            }
            Flaw::Fact(_) => {}
        }
    }

    /// A call over an image with this flaw and nothing else wrong.
    pub fn probe(self, rng: &mut Rng, part: &'static Part, call: Call) -> Probe {
        if let Flaw::Fact(damage) = self {
            return damaged_call(rng, part, damage, call).over_image();
        }
        let mut probe = good_probe(rng, part, call, call.wants_open()).over_image();
        self.spoil(rng, part, &mut probe.image);
        probe
    }
}

/// A call over a record in which nothing is wrong, with one open or with none. It is
/// refused only if it is out of turn.
pub fn good_probe(rng: &mut Rng, part: &'static Part, call: Call, is_open: bool) -> Probe {
    if is_open {
        return any_standing(rng, part, call);
    }
    let mut record = ready_record(rng, part);
    record.n = part.least_n + rng.below(3) as u8;
    let samples = if call.takes_samples() {
        let opcode = rng.pick(&part.opcodes());
        compose(rng, part, &record, opcode, &[], &Plan::sound())
    } else {
        Vec::new()
    };
    whole_probe(rng, call, part, record, samples)
}

/// What is wrong with an image, if it is one thing alone.
pub fn flaws(image: &[u8]) -> Vec<(&'static Part, Flaw)> {
    let part_of = |image: &[u8]| valid(image).and_then(|record| find(record.part));
    let mut list = Vec::new();
    if image.len() != IMAGE_BYTES {
        let mut right = image.to_vec();
        right.resize(IMAGE_BYTES, 0);
        let flaw = if image.len() > IMAGE_BYTES + 1 {
            Flaw::Longer
        } else {
            Flaw::Length(image.len())
        };
        match part_of(&right) {
            Some(part) => list.push((part, flaw)),
            // Of nothing one cannot tell the part.
            None if image.is_empty() => list.push((PARTS[0], flaw)),
            None => {}
        }
        return list;
    }
    let Some(record) = spelled(image) else {
        return list;
    };
    if valid(image).is_some() {
        return list;
    }
    // The part of the image with this byte instead.
    let with = |at: usize, byte: u8| {
        let mut other = image.to_vec();
        other[at] = byte;
        part_of(&other)
    };
    let Some(part) = find(record.part) else {
        let number = record.part;
        for part in PARTS {
            if with(place::PART, part.number).is_some() {
                list.push((part, Flaw::Part(number)));
            }
        }
        return list;
    };
    if !part.allows_n(record.n) {
        let mut offered = part.least_n..=part.most_n;
        if offered.any(|n| with(place::N, n).is_some()) {
            let flaw = match record.n {
                n if n == part.least_n - 1 => Flaw::Below,
                n if n == part.most_n + 1 => Flaw::Above,
                _ => Flaw::Far,
            };
            list.push((part, flaw));
        }
        return list;
    }
    for at in FLAGS.into_iter().filter(|&at| image[at] > 1) {
        if with(at, 0).is_some() || with(at, 1).is_some() {
            list.push((part, Flaw::Flag(at, image[at])));
        }
    }
    for at in spare_places().into_iter().filter(|&at| image[at] != 0) {
        if with(at, 0).is_some() {
            list.push((part, Flaw::Spare(at)));
        }
    }
    if image_of(&record) != image {
        return list;
    }
    if !registers_fit(part, &record) {
        for field in Field::list(part) {
            let mended = field.mended(part, &record);
            let alone = mended.iter().any(|other| valid(&image_of(other)).is_some());
            let way = field.way(part, &record).filter(|_| alone);
            list.extend(way.map(|way| (part, Flaw::Field(field, way))));
        }
        return list;
    }
    let of_facts = damages(part, &record);
    list.extend(
        of_facts
            .into_iter()
            .map(|damage| (part, Flaw::Fact(damage))),
    );
    list
}
