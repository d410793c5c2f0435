//! The places where the limits of an MRAM part show: the list of those that made
//! input has to reach, the way to each of them, and how many were reached.

use std::collections::BTreeMap;

use crate::answer::Answer::{self, Address, Done, Protected, Reserved};
use crate::answer::Class;
use crate::compose::{pick_configurations, Plan};
use crate::device::{configurations_allowed, Record};
use crate::parts::{find, of_family, Family, Part, Register};
use crate::places::{protected, share_bytes};
use crate::reading::{read, Reading};
use crate::rng::Rng;
use crate::rows::Row;
use crate::wires::clocks_for_bits;

/// A wanted transaction at a limit.
#[derive(Clone, Copy, PartialEq, Eq, PartialOrd, Ord, Debug)]
pub enum Edge {
    /// Configurations are written with this wrap code, allowed or reserved.
    Code(u8),
    /// A memory read runs past the end of the group of this wrap code and wraps.
    Group(u8),
    /// The same with the wrap bit down: it runs straight on.
    Straight(u8),
    /// An augmented read or write (its opcode) runs past the end of the area.
    AreaEnd(u8),
    /// An augmented write runs over the edge below this section, of which one side
    /// is protected.
    Section(u8),
    /// An augmented write runs over the middle of a section that is protected or
    /// not; sections half as long would protect other bytes of it.
    Middle(bool),
    /// An augmented read or write begins at the last address of the area.
    AreaLast(u8),
    /// The same at the first address past it.
    AreaPast(u8),
    /// Opcode 65 has an address that the map of some part has.
    Register(u32),
    /// A memory write runs over the border of what this status protects.
    Share(u8),
}

/// All addresses that the map of some part has.
fn register_addresses() -> Vec<u32> {
    let mut list = Vec::new();
    for part in of_family(Family::Mram) {
        list.extend(part.register_map.iter().map(|entry| entry.0));
    }
    list.sort_unstable();
    list.dedup();
    list
}

/// All lengths that some MRAM part has a wrap code for.
fn wrap_lengths() -> Vec<usize> {
    let parts = of_family(Family::Mram);
    let mut list: Vec<usize> = parts
        .iter()
        .flat_map(|part| part.wrap_lengths)
        .copied()
        .collect();
    list.sort_unstable();
    list.dedup();
    list
}

/// Sections that are protected or not as asked, and of which one half at least
/// would not be so if sections were half as long.
fn odd_sections(protection: u8, protected: bool) -> Vec<usize> {
    let both_halves = if protected { 3 } else { 0 };
    (0..4)
        .filter(|section| (protection >> section & 1 == 1) == protected)
        .filter(|section| protection >> (2 * section) & 3 != both_halves)
        .collect()
}

/// How many bytes of memory lie before the border of what the status protects;
/// where it protects nothing or all, the border is the end.
fn border(record: &Record) -> usize {
    let size = 1usize << record.n;
    let share = share_bytes(record);
    if record.status & 0x20 == 0 {
        (size - share) % size
    } else {
        share % size
    }
}

/// A burst that reaches the byte before this place and the place itself.
fn over(rng: &mut Rng, place: usize, size: usize) -> Plan {
    let before = 1 + rng.below(3);
    let bytes = before + 1 + rng.below(3);
    from((place + size - before) % size, bytes)
}

/// A burst of so many bytes from this address on.
fn from(address: usize, bytes: usize) -> Plan {
    Plan {
        address: Some(address as u32),
        bytes: Some(bytes),
        ..Plan::sound()
    }
}

/// The way to an edge.
pub struct Aim {
    /// Opcode and plan of bursts that are written first, so that the bytes about
    /// the edge differ.
    pub marks: Vec<(u8, Plan)>,
    pub plan: Plan,
}

impl Edge {
    /// All that a tape has to reach on this part; there is nothing on the PSRAM.
    pub fn on_tapes(part: &Part) -> Vec<Edge> {
        let mut list = Vec::new();
        if part.family == Family::Mram {
            list.extend((0..8).map(Edge::Code));
            let codes = 0..part.wrap_lengths.len() as u8;
            list.extend(codes.clone().map(Edge::Group));
            list.extend(codes.map(Edge::Straight));
            list.extend([0x42, 0x4B].map(Edge::AreaEnd));
            list.extend((1..8).map(Edge::Section));
            list.extend([false, true].map(Edge::Middle));
            list.extend([0x42, 0x4B].map(Edge::AreaLast));
            list.extend([0x42, 0x4B].map(Edge::AreaPast));
            list.extend(register_addresses().into_iter().map(Edge::Register));
            list.extend((0..16).map(|code| Edge::Share(code << 2)));
        }
        list
    }

    /// The same for probes. What a probe's area holds comes again after 256 bytes,
    /// so that it cannot show where a read past the end goes on.
    pub fn on_probes(part: &Part) -> Vec<Edge> {
        let mut list = Edge::on_tapes(part);
        list.retain(|&edge| edge != Edge::AreaEnd(0x4B));
        list
    }

    /// Least n of a memory in which the edge shows: a group must not be all of it.
    pub fn least_n(&self, part: &Part) -> u8 {
        match *self {
            Edge::Group(code) | Edge::Straight(code) => {
                let bits = part.wrap_lengths[usize::from(code)].ilog2() as u8;
                part.least_n.max(bits + 1)
            }
            _ => part.least_n,
        }
    }

    pub fn opcode(&self) -> u8 {
        match *self {
            Edge::Code(_) => 0x87,
            Edge::Group(_) | Edge::Straight(_) => 0x03,
            Edge::AreaEnd(opcode) | Edge::AreaLast(opcode) | Edge::AreaPast(opcode) => opcode,
            Edge::Section(_) | Edge::Middle(_) => 0x42,
            Edge::Register(_) => 0x65,
            Edge::Share(_) => 0x02,
        }
    }

    /// The bit of configuration 3 that a read at this edge wraps by.
    fn wrap_bit(&self) -> u8 {
        match self {
            Edge::Group(_) => 0x10,
            _ => 0x00,
        }
    }

    /// Opcodes and values of the register writes without which the record does not
    /// show the edge.
    pub fn needed_first(&self, rng: &mut Rng, part: &Part, record: &Record) -> Vec<(u8, Vec<u8>)> {
        let mut writes = Vec::new();
        let protection = record.area_protection;
        match *self {
            Edge::Group(code) | Edge::Straight(code) => {
                let wanted = self.wrap_bit() | code;
                if record.configurations[2] & 0x1F != wanted {
                    let mut values = pick_configurations(rng, part).to_vec();
                    values[2] = values[2] & 0xE0 | wanted;
                    writes.push((0x87, values));
                }
                // What is written about the ends must be stored.
                if share_bytes(record) > 0 {
                    writes.push((0x01, vec![0]));
                }
            }
            Edge::AreaEnd(_) if protection & 0x81 != 0 => {
                writes.push((0x1A, vec![rng.byte() & 0x7E]));
            }
            Edge::Section(section) if matches!(protection >> (section - 1) & 3, 0 | 3) => {
                let drawn = rng.byte();
                let below = drawn >> (section - 1) & 1;
                let value = drawn & !(1 << section) | (1 - below) << section;
                writes.push((0x1A, vec![value]));
            }
            Edge::Middle(wanted) if odd_sections(protection, wanted).is_empty() => {
                let values = if wanted {
                    [0x01, 0x02, 0x04, 0x08]
                } else {
                    [0x02, 0x0C, 0x30, 0xC0]
                };
                writes.push((0x1A, vec![rng.pick(&values)]));
            }
            Edge::Register(address) => {
                let register = part.register_at(address).map(|(register, _)| register);
                if register == Some(Register::Serial) && record.serial == [0; 8] {
                    let drawn = rng.eight().map(|byte| byte | 1);
                    writes.push((0xC2, drawn.to_vec()));
                }
            }
            Edge::Share(status) if record.status != status => {
                writes.push((0x01, vec![status]));
            }
            _ => {}
        }
        writes
    }

    /// The way to the edge from a record that has all that is needed first.
    pub fn aim(&self, rng: &mut Rng, part: &Part, record: &Record) -> Aim {
        let (size, area, section) = (1 << record.n, part.area_bytes, part.section_bytes);
        let mut marks = Vec::new();
        let plan = match *self {
            Edge::Code(code) => {
                let mut values = pick_configurations(rng, part).to_vec();
                values[2] = values[2] & 0xF8 | code;
                Plan {
                    values: Some(values),
                    ..Plan::sound()
                }
            }
            Edge::Group(code) | Edge::Straight(code) => {
                let group = part.wrap_lengths[usize::from(code)];
                let first = group * rng.below(size / group);
                let end = first + group;
                marks = vec![(0x02, from(end - 3, 6)), (0x02, from(first, 4))];
                over(rng, end, size)
            }
            Edge::AreaEnd(opcode) => {
                if opcode == 0x4B {
                    marks = vec![(0x42, from(area - 3, 6))];
                }
                over(rng, area, area)
            }
            Edge::Section(number) => over(rng, section * usize::from(number), area),
            Edge::Middle(wanted) => {
                let odd = odd_sections(record.area_protection, wanted);
                let number = odd.get(rng.below(odd.len())).copied().unwrap_or(0);
                over(rng, section * number + section / 2, area)
            }
            Edge::AreaLast(_) => from(area - 1, 1 + rng.below(3)),
            Edge::AreaPast(_) => from(area, 1 + rng.below(3)),
            Edge::Register(address) => Plan {
                address: Some(address),
                ..Plan::sound()
            },
            Edge::Share(_) => over(rng, border(record), size),
        };
        Aim { marks, plan }
    }

    /// What edges of this sort are.
    fn kind(&self) -> &'static str {
        match self {
            Edge::Code(_) => "configurations written with wrap code",
            Edge::Group(_) => "memory read that wraps at the end of the group of code",
            Edge::Straight(_) => "memory read that runs on at the end of the group of code",
            Edge::AreaEnd(_) => "past the end of the area",
            Edge::Section(_) => "augmented write over the edge below section",
            Edge::Middle(_) => "augmented write over the middle of a section",
            Edge::AreaLast(_) => "last address of the area",
            Edge::AreaPast(_) => "first address past the area",
            Edge::Register(_) => "any register at address",
            Edge::Share(_) => "memory write over the border of status",
        }
    }

    fn word(&self) -> String {
        match *self {
            Edge::Code(number)
            | Edge::Group(number)
            | Edge::Straight(number)
            | Edge::Section(number) => number.to_string(),
            Edge::Middle(false) => String::from("open"),
            Edge::Middle(true) => String::from("protected"),
            Edge::Register(address) => format!("{address:02X}"),
            Edge::AreaEnd(byte)
            | Edge::AreaLast(byte)
            | Edge::AreaPast(byte)
            | Edge::Share(byte) => {
                format!("{byte:02X}")
            }
        }
    }
}

/// A transaction that was not refused.
pub struct Sent<'a> {
    part: &'static Part,
    before: &'a Record,
    reading: Reading,
    answer: Answer,
    /// Memory and area after it, which a read leaves as they were.
    memory: &'a [u8],
    area: &'a [u8],
}

impl<'a> Sent<'a> {
    /// A refused record may be of no part or mode at all; then there is nothing.
    pub fn new(
        before: &'a Record,
        samples: &[u8],
        answer: Answer,
        memory: &'a [u8],
        area: &'a [u8],
    ) -> Option<Sent<'a>> {
        if answer.class() == Class::Refused {
            return None;
        }
        let part = find(before.part)?;
        Some(Sent {
            part,
            before,
            reading: read(part, before, samples),
            answer,
            memory,
            area,
        })
    }

    fn is(&self, opcode: u8, answers: &[Answer]) -> bool {
        self.reading.opcode == Some(opcode) && answers.contains(&self.answer)
    }

    fn address(&self) -> Option<usize> {
        self.reading.address.map(|address| address as usize)
    }

    /// Bytes of the data phase whose clocks all came.
    fn whole_bytes(&self) -> usize {
        let wires = self.reading.command.map_or(1, |command| command.rest_wires);
        self.reading.clocks.data as usize / clocks_for_bits(8, wires)
    }

    /// Whether the burst, which goes round so many bytes, reaches the byte before
    /// this place and then the place itself.
    fn passes(&self, size: usize, place: usize) -> bool {
        self.address().is_some_and(|address| {
            let bytes_before = (place + size - 1 - address % size) % size;
            bytes_before + 1 < self.whole_bytes()
        })
    }

    /// The bytes that the burst would find from this address on if it went round
    /// aligned groups of this length.
    fn found(&self, store: &[u8], address: usize, group: usize) -> Vec<u8> {
        let first = address - address % group;
        (0..self.whole_bytes())
            .map(|index| store[first + (address + index) % group])
            .collect()
    }

    /// Whether a memory read passes the end of a group of this length, which is not
    /// all of memory, and would find other bytes if it went round any other length.
    fn shows_group(&self, group: usize) -> bool {
        let mut others = wrap_lengths();
        others.retain(|&other| other != group && other < self.memory.len());
        self.shows_straight(group)
            && others
                .iter()
                .all(|&other| self.read_round(other) != self.read_round(group))
    }

    /// The same, but only for going straight on or round this length.
    fn shows_straight(&self, group: usize) -> bool {
        let size = self.memory.len();
        let start = self.address().unwrap_or(0) % group;
        group < size
            && start + self.whole_bytes() > group
            && self.read_round(size) != self.read_round(group)
    }

    /// The bytes that a memory read would find if it went round this length.
    fn read_round(&self, length: usize) -> Vec<u8> {
        self.found(self.memory, self.address().unwrap_or(0), length)
    }

    /// Whether an augmented read passes the end of the area, and neither an area half
    /// as long nor a burst that stays in its half would give the same bytes.
    fn shows_area_end(&self) -> bool {
        let (area, half) = (self.area.len(), self.area.len() / 2);
        let address = self.address().unwrap_or(0);
        let found = self.found(self.area, address, area);
        self.passes(area, 0)
            && found != self.found(self.area, address, half)
            && found != self.found(self.area, address % half, half)
    }

    /// Whether this place of the area is protected.
    fn closed(&self, place: usize) -> bool {
        protected(self.part, self.before, 0x42, place)
    }

    /// Whether the transaction is at this edge, with the answer that its part has
    /// for it.
    pub fn shows(&self, edge: Edge) -> bool {
        let (part, before) = (self.part, self.before);
        let (area, section) = (part.area_bytes, part.section_bytes);
        match edge {
            Edge::Code(code) => {
                let allowed = usize::from(code) < part.wrap_lengths.len();
                let [first, second, third, fourth] = self.reading.data[..] else {
                    return false;
                };
                // Nothing but the code may be at fault.
                let plain = [first, second, third & 0xF8, fourth];
                self.is(0x87, &[if allowed { Done } else { Reserved }])
                    && third & 0x07 == code
                    && configurations_allowed(part, &plain)
            }
            Edge::Group(code) | Edge::Straight(code) => {
                let group = part.wrap_lengths[usize::from(code)];
                self.is(0x03, &[Done])
                    && before.configurations[2] & 0x17 == edge.wrap_bit() | code
                    && match edge {
                        Edge::Group(_) => self.shows_group(group),
                        _ => self.shows_straight(group),
                    }
            }
            Edge::AreaEnd(0x42) => {
                self.is(0x42, &[Done])
                    && self.passes(area, 0)
                    && !self.closed(area - 1)
                    && !self.closed(0)
            }
            Edge::AreaEnd(opcode) => self.is(opcode, &[Done]) && self.shows_area_end(),
            Edge::Section(number) => {
                let place = section * usize::from(number);
                self.is(0x42, &[Done])
                    && self.passes(area, place)
                    && self.closed(place - 1) != self.closed(place)
            }
            Edge::Middle(wanted) => {
                let odd = odd_sections(before.area_protection, wanted);
                self.is(0x42, &[Done, Protected])
                    && odd
                        .iter()
                        .any(|number| self.passes(area, section * number + section / 2))
            }
            Edge::AreaLast(opcode) => {
                self.is(opcode, &[Done, Protected]) && self.address() == Some(area - 1)
            }
            Edge::AreaPast(opcode) => self.is(opcode, &[Address]) && self.address() == Some(area),
            Edge::Register(address) => {
                let there = self.reading.address == Some(address);
                match part.register_at(address) {
                    // All of it driven, and a serial number that can be told apart.
                    Some((register, bytes)) => {
                        self.is(0x65, &[Done])
                            && there
                            && self.whole_bytes() == bytes
                            && (register != Register::Serial || before.serial != [0; 8])
                    }
                    None => self.is(0x65, &[Address]) && there,
                }
            }
            Edge::Share(status) => {
                self.is(0x02, &[Done, Protected])
                    && before.status == status
                    && self.passes(1 << before.n, border(before))
            }
        }
    }
}

/// How often each of the list was reached, by part number.
#[derive(Default)]
pub struct Reached(BTreeMap<(u8, Edge), u64>);

impl Reached {
    /// Counts a transaction that was not refused.
    pub fn add(&mut self, sent: Option<&Sent>) {
        let Some(sent) = sent else {
            return;
        };
        for edge in Edge::on_tapes(sent.part) {
            if sent.shows(edge) {
                *self.0.entry((sent.part.number, edge)).or_default() += 1;
            }
        }
    }

    /// The counts of a list for each MRAM part.
    pub fn rows(&self, list: fn(&Part) -> Vec<Edge>) -> Vec<Row> {
        let mut rows = Vec::new();
        for part in of_family(Family::Mram) {
            rows.extend(list(part).into_iter().map(|edge| Row {
                part,
                kind: String::from(edge.kind()),
                word: edge.word(),
                count: self.0.get(&(part.number, edge)).copied().unwrap_or(0),
            }));
        }
        rows
    }
}
