//! Seeded requests to the host half: good ones for every command, ones with one
//! or several faults, a few about the most clocks there may be, and gatherings.

use crate::answer::Answer::{self, Address, Long, Reserved, Short, Size, Unknown};
use crate::device::MOST_CLOCKS;
use crate::faults::{bytes_of, clocks_of, OF_BUILD, PAIRS_OF_BUILD};
use crate::parts::{strangers, Part, FIRST_FREE_NUMBER, P, PARTS};
use crate::request::{Call, Request};
use crate::rng::Rng;
use crate::table::{look_up, Command, Data, Wait};
use crate::wires::{can_be_driven, clocks_for_bits, clocks_for_bytes, drive};

/// One request in so many is about the most clocks; their buffers are large.
const BORDER_EVERY: usize = 85;
/// Numbers that no transaction can hold. Some of them give only a few clocks in
/// 16 or 32 bits.
const HUGE: [u32; 8] = [
    65_535,
    65_536,
    1 << 29,
    1 << 30,
    (1 << 31) - 1,
    1 << 31,
    u32::MAX - 1,
    u32::MAX,
];

/// A command that the tables have.
#[derive(Clone, Copy)]
struct Known {
    part: &'static Part,
    mode: u8,
    opcode: u8,
    command: Command,
}

impl Known {
    /// Whether a request for this command can have such a fault.
    fn can_have(&self, fault: Answer) -> bool {
        let data = self.command.data;
        match fault {
            Address => self.command.address,
            Reserved => self.command.wait == Wait::Configuration2,
            Short => data != Data::None,
            Long => !matches!(data, Data::ReadRunning | Data::WriteRunning),
            _ => true,
        }
    }
}

/// Every command of every part in every mode that has it.
fn all_known() -> Vec<Known> {
    let mut list = Vec::new();
    for part in PARTS {
        for &mode in part.modes() {
            for opcode in part.opcodes() {
                list.extend(part.command(opcode, mode).map(|command| Known {
                    part,
                    mode,
                    opcode,
                    command,
                }));
            }
        }
    }
    list
}

/// A request about the most clocks: the most bytes that fit, or one more.
#[derive(Clone, Copy)]
struct Border {
    known: Known,
    configuration2: Option<u8>,
    more_bytes: u64,
}

/// Makes requests one after the other. It keeps a list of commands to build well
/// and one of borders, and works both off, so that none is left to chance.
struct Asker {
    rng: Rng,
    known: Vec<Known>,
    goals: Vec<Known>,
    borders: Vec<Border>,
    made: usize,
}

impl Asker {
    fn new(seed: u64) -> Asker {
        Asker {
            rng: Rng::new(seed),
            known: all_known(),
            goals: Vec::new(),
            borders: Vec::new(),
            made: 0,
        }
    }

    fn next(&mut self) -> Request {
        self.made += 1;
        if self.made % BORDER_EVERY == 0 {
            self.border()
        } else if self.rng.chance(1, 4) {
            gathering(&mut self.rng)
        } else {
            self.building()
        }
    }

    /// The next command to build without a fault.
    fn goal(&mut self) -> Known {
        if self.goals.is_empty() {
            self.goals = self.known.clone();
            // 4B has a wait for each value of configuration 2.
            let area = |known: &&Known| known.command.wait == Wait::Configuration2;
            let more = self.known.iter().filter(area).flat_map(|&known| [known; 4]);
            self.goals.extend(more);
            self.rng.shuffle(&mut self.goals);
        }
        self.goals.pop().unwrap_or(self.known[0])
    }

    /// One of the commands that can have all these faults. Half the time the kind
    /// of data is drawn first, so that the rare kinds come often enough.
    fn fitting(&mut self, faults: &[Answer]) -> Known {
        let mut list: Vec<Known> = self
            .known
            .iter()
            .copied()
            .filter(|known| faults.iter().all(|&fault| known.can_have(fault)))
            .collect();
        let mut kinds: Vec<Data> = Vec::new();
        for known in &list {
            if !kinds.contains(&known.command.data) {
                kinds.push(known.command.data);
            }
        }
        if self.rng.chance(1, 2) {
            let kind = self.rng.pick(&kinds);
            list.retain(|known| known.command.data == kind);
        }
        self.rng.pick(&list)
    }

    fn building(&mut self) -> Request {
        let faults = pick_faults(&mut self.rng);
        let known = if faults.is_empty() {
            self.goal()
        } else {
            self.fitting(&faults)
        };
        let rng = &mut self.rng;
        let mut request = Request {
            call: Call::Build,
            part_or_wires: known.part.number,
            opcode: known.opcode,
            mode: known.mode,
            configuration2: pick_configuration2(rng, &known, faults.contains(&Reserved)),
            address: pick_address(rng, &known, faults.contains(&Address)),
            number: 0,
            room: 0,
            data: Vec::new(),
        };
        put_bytes(rng, &mut request, &known, &faults);
        request.room = pick_room(rng, &request, &known, faults.contains(&Size));
        if faults.contains(&Unknown) {
            // The opcode stays where there are other faults, so that they are seen.
            make_unknown(rng, &mut request, faults.len() == 1);
        }
        request
    }

    /// The list of borders: every running read, the waits of 4B that come out at
    /// the most clocks, and one write each on one, two and four wires, whose data
    /// is long.
    fn fill_borders(&mut self) {
        let list = |data: Data, wires: &[u8]| -> Vec<Known> {
            self.known
                .iter()
                .copied()
                .filter(|known| known.command.data == data)
                .filter(|known| wires.contains(&known.command.rest_wires))
                .collect()
        };
        let reads = list(Data::ReadRunning, &[1, 2, 4]);
        let writes = [1, 2, 4].map(|wires| list(Data::WriteRunning, &[wires]));
        for more_bytes in [0, 1] {
            let plain = |known: Known| Border {
                known,
                configuration2: None,
                more_bytes,
            };
            self.borders.extend(reads.iter().copied().map(plain));
            for list in &writes {
                let known = self.rng.pick(list);
                self.borders.push(plain(known));
            }
        }
        let area = |known: &&Known| known.command.wait == Wait::Configuration2;
        for &known in reads.iter().filter(area) {
            // 65,534, 65,535 and 65,536 clocks.
            for (configuration2, more_bytes) in [(6, 0), (7, 0), (8, 1)] {
                self.borders.push(Border {
                    known,
                    configuration2: Some(configuration2),
                    more_bytes,
                });
            }
        }
        self.rng.shuffle(&mut self.borders);
    }

    fn border(&mut self) -> Request {
        if self.borders.is_empty() {
            self.fill_borders();
        }
        let Some(border) = self.borders.pop() else {
            return self.building();
        };
        let rng = &mut self.rng;
        let known = border.known;
        let command = known.command;
        let drawn = pick_configuration2(rng, &known, false);
        let configuration2 = border.configuration2.unwrap_or(drawn);
        let before_data = clocks_of(&command, known.mode, configuration2, 0);
        let per_byte = clocks_for_bits(8, command.rest_wires) as u64;
        let bytes = (MOST_CLOCKS as u64 - before_data) / per_byte + border.more_bytes;
        let clocks = clocks_of(&command, known.mode, configuration2, bytes) as usize;
        let mut request = Request {
            call: Call::Build,
            part_or_wires: known.part.number,
            opcode: known.opcode,
            mode: known.mode,
            configuration2,
            address: pick_address(rng, &known, false),
            number: 0,
            // Enough, so that the clocks alone decide.
            room: clocks + rng.pick(&[0, 0, 1, 9]),
            data: Vec::new(),
        };
        if command.data == Data::ReadRunning {
            request.number = bytes as u32;
            // Here and there the room decides after all.
            if border.configuration2.is_none() && rng.chance(1, 6) {
                request.room = clocks - 1;
            }
        } else {
            request.data = rng.bytes(bytes as usize);
        }
        request
    }
}

/// The faults that a request is to have, none to all that can hold at once.
fn pick_faults(rng: &mut Rng) -> Vec<Answer> {
    match rng.below(20) {
        0..=7 => Vec::new(),
        // Long and Size have the most ways to come about.
        8..=12 => vec![rng.pick(&[Unknown, Address, Reserved, Short, Long, Long, Size, Size])],
        13..=16 => {
            let (earlier, later) = rng.pick(&PAIRS_OF_BUILD);
            vec![earlier, later]
        }
        _ => {
            // Long holds neither with Short nor with Reserved.
            let left_out: &[Answer] = if rng.chance(1, 2) {
                &[Long]
            } else {
                &[Short, Reserved]
            };
            OF_BUILD
                .into_iter()
                .filter(|fault| !left_out.contains(fault) && rng.chance(3, 4))
                .collect()
        }
    }
}

/// An address; any at all where the command has none.
fn pick_address(rng: &mut Rng, known: &Known, above: bool) -> u32 {
    let any = !known.command.address && rng.chance(1, 2);
    if above || any {
        let bit = 1u32 << (24 + rng.below(8));
        let low = (rng.draw() as u32) & 0xFF_FFFF;
        rng.pick(&[0x100_0000, 0x100_0000, 0x1FF_FFFF, u32::MAX, bit, bit | low])
    } else {
        let drawn = rng.below(1 << 24) as u32;
        let bit = 1u32 << rng.below(24);
        rng.pick(&[
            0, 1, 0xFF, 0xFF_FFFE, 0xFF_FFFF, 0xFF_FFFF, bit, drawn, drawn,
        ])
    }
}

/// Configuration 2; any at all where the command does not use it.
fn pick_configuration2(rng: &mut Rng, known: &Known, above: bool) -> u8 {
    let used = known.command.wait == Wait::Configuration2;
    let any = !used && rng.chance(1, 2);
    if above || any {
        let drawn = 0x10 | rng.byte();
        rng.pick(&[0x10, 0x10, 0x11, 0x1F, 0x80, 0xFF, drawn])
    } else {
        let drawn = rng.below(16) as u8;
        rng.pick(&[0, 1, 0x0E, 0x0F, 0x0F, drawn, drawn, drawn])
    }
}

/// Some hundreds of bytes.
fn hundreds(rng: &mut Rng) -> usize {
    100 + rng.below(300)
}

/// Puts in the number of bytes to read and the data to write: those that the
/// command looks at, and now and then those that it ignores.
fn put_bytes(rng: &mut Rng, request: &mut Request, known: &Known, faults: &[Answer]) {
    let (short, long) = (faults.contains(&Short), faults.contains(&Long));
    let few = 1 + rng.below(6);
    match known.command.data {
        Data::None if long => {
            let way = rng.below(3);
            if way != 0 {
                let many = hundreds(rng) as u32;
                let huge = rng.pick(&HUGE);
                request.number = rng.pick(&[1, 1, 1, few as u32, many, huge]);
            }
            if way != 1 {
                request.data = rng.bytes(few);
            }
        }
        Data::None => {}
        Data::ReadFixed(_) | Data::ReadMapped | Data::ReadRunning => {
            request.number = pick_number(rng, known.command.data, short, long);
            if faults.contains(&Size) && known.command.data == Data::ReadRunning && !short {
                // Too many clocks, whatever the room.
                if rng.chance(2, 3) {
                    let wraps = (1u64 << 32) / clocks_for_bits(8, known.command.rest_wires) as u64;
                    let drawn = rng.pick(&HUGE);
                    request.number = rng.pick(&[drawn, wraps as u32, wraps as u32 + few as u32]);
                }
            }
            if rng.chance(1, 3) {
                let many = hundreds(rng);
                let length = rng.pick(&[1, 1, 4, 8, 9, few, few, few]);
                request.data = rng.bytes(length);
                if rng.chance(1, 30) {
                    request.data = rng.bytes(many);
                }
            }
        }
        Data::WriteFixed(size) => {
            let many = hundreds(rng);
            let length = if short {
                rng.pick(&[0, size - 1, size - 1, few % size])
            } else if long {
                rng.pick(&[size + 1, size + 1, size + 1, size + few, 2 * size, many])
            } else {
                size
            };
            request.data = rng.bytes(length);
        }
        Data::WriteRunning => {
            let length = if short {
                0
            } else if rng.chance(1, 16) {
                hundreds(rng)
            } else {
                rng.pick(&[1, 1, 2, few, few, 8, 16])
            };
            request.data = rng.bytes(length);
        }
    }
    let writes = matches!(known.command.data, Data::WriteFixed(_) | Data::WriteRunning);
    if writes && rng.chance(1, 2) {
        let huge = rng.pick(&HUGE);
        request.number = rng.pick(&[1, 1, 4, 8, 9, few as u32, 300, huge]);
    }
}

/// A number of bytes to read: allowed, or none, or too many.
fn pick_number(rng: &mut Rng, data: Data, short: bool, long: bool) -> u32 {
    if short {
        return 0;
    }
    let size = match data {
        Data::ReadFixed(size) => size,
        _ => 8,
    };
    let many = hundreds(rng) as u32;
    let huge = rng.pick(&HUGE);
    let most = size as u32;
    let fewer = 1 + rng.below(size) as u32;
    match data {
        Data::ReadRunning if rng.chance(1, 10) => many,
        Data::ReadRunning => rng.pick(&[1, 1, 2, 3, 9, 16, fewer, fewer]),
        _ if long => rng.pick(&[most + 1, most + 1, most + 1, most + fewer, 255, many, huge]),
        _ => rng.pick(&[1, most, most, most, fewer, (most - 1).max(1)]),
    }
}

/// A room that is exact or a little more, or one that is too short.
fn pick_room(rng: &mut Rng, request: &Request, known: &Known, short: bool) -> usize {
    let bytes = bytes_of(known.command.data, request);
    let clocks = clocks_of(&known.command, known.mode, request.configuration2, bytes);
    if clocks > MOST_CLOCKS as u64 {
        // Too short anyway; enough for a few bytes, so that it does not look it.
        return rng.pick(&[0, 64, 200, 200, 300, 300]);
    }
    let clocks = clocks as usize;
    if short {
        let command_clocks = clocks_for_bits(8, known.mode);
        rng.pick(&[
            0,
            0,
            1,
            command_clocks - 1,
            clocks / 2,
            clocks - 1,
            clocks - 1,
            clocks - 1,
        ])
    } else {
        clocks + rng.pick(&[0, 0, 0, 0, 1, 1, 2, 7, 60])
    }
}

/// Turns the part, the mode or, where it may, the opcode into one that makes an
/// unknown command.
fn make_unknown(rng: &mut Rng, request: &mut Request, any_opcode: bool) {
    let good = request.clone();
    let stranger = rng.pick(&strangers(good.part_or_wires));
    let free = FIRST_FREE_NUMBER;
    for _ in 0..8 {
        request.part_or_wires = good.part_or_wires;
        request.opcode = good.opcode;
        request.mode = good.mode;
        match rng.below(if any_opcode { 9 } else { 5 }) {
            0 => request.part_or_wires = rng.pick(&[0, free, free, free + 1, 255]),
            1 | 2 => request.mode = rng.pick(&[0, 3, 5, 6, 8, 255]),
            3 => request.mode = rng.pick(&[1, 2, 2, 4]),
            4 => request.part_or_wires = stranger.number,
            5 => request.opcode = rng.byte(),
            6 => request.opcode = rng.pick(&stranger.opcodes()),
            7 => request.opcode ^= 1 << rng.below(8),
            _ => {
                // A mode that another part has.
                request.part_or_wires = P.number;
                request.opcode = rng.pick(&P.opcodes());
                request.mode = 2;
            }
        }
        if look_up(request.part_or_wires, request.opcode, request.mode).is_none() {
            return;
        }
    }
    request.part_or_wires = 0;
}

/// Output samples to gather: what a device drives, with undriven clocks about and
/// inside, and sometimes a sample or a number of wires that no device has.
fn gathering(rng: &mut Rng) -> Request {
    let wires = rng.pick(&[1u8, 2, 4]);
    let length = if rng.chance(1, 40) {
        20 + rng.below(60)
    } else {
        rng.below(7)
    };
    let bytes = rng.bytes(length);
    let whole = clocks_for_bytes(bytes.len(), wires);
    // A last byte that is not full, often with all but one of its clocks.
    let cut = match rng.below(6) {
        0 => 1,
        1 => 1 + rng.below(clocks_for_bits(8, wires) - 1),
        _ => 0,
    };
    let mut samples = drive(&bytes, whole.saturating_sub(cut), wires);
    let whole_bytes = samples.len() / clocks_for_bits(8, wires);
    if rng.chance(1, 3) {
        // The command, address and wait clocks before the data.
        let before = rng.pick(&[2, 8, 14, 20]);
        samples.splice(0..0, std::iter::repeat_n(0, before));
    }
    if rng.chance(1, 2) {
        for _ in 0..1 + rng.below(5) {
            let at = rng.below(samples.len() + 1);
            samples.insert(at, 0);
        }
    }
    if rng.chance(1, 5) {
        let at = match rng.below(3) {
            0 => 0,
            1 => samples.len(),
            _ => rng.below(samples.len() + 1),
        };
        let stray = stray_sample(rng, wires);
        samples.insert(at, stray);
    }
    let room = match rng.below(10) {
        0..=3 => whole_bytes,
        4 | 5 => whole_bytes + 1,
        6 => whole_bytes + 1 + rng.below(20),
        7 | 8 => whole_bytes.saturating_sub(1),
        _ => 0,
    };
    let told_wires = if rng.chance(1, 10) {
        rng.pick(&[0, 3, 5, 6, 8, 16, 255])
    } else if rng.chance(1, 25) {
        // The samples of other wires than those that are told.
        rng.pick(&[1, 2, 4])
    } else {
        wires
    };
    Request {
        call: Call::Gather,
        part_or_wires: told_wires,
        // None of the others is looked at.
        opcode: rng.pick(&[0, 0, 0x03, 0x4B]),
        mode: rng.pick(&[0, 1, 2, 4]),
        configuration2: rng.pick(&[0, 0, 0xFF]),
        address: rng.pick(&[0, 0, u32::MAX]),
        number: rng.pick(&[0, 0, 1, u32::MAX]),
        room,
        data: samples,
    }
}

/// A sample that a device never drives on so many wires, most often a near miss.
fn stray_sample(rng: &mut Rng, wires: u8) -> u8 {
    let near: &[u8] = match wires {
        1 => &[0x21, 0x21, 0x23, 0x23, 0x24, 0x02, 0x12, 0x1F, 0x30, 0xA2],
        2 => &[0x34, 0x3F, 0x2F, 0x20, 0x22, 0x03, 0x70, 0xB3, 0xF0],
        _ => &[0xEF, 0xE0, 0x0F, 0x01, 0x70, 0x7F, 0x20, 0x22, 0x33],
    };
    let any = rng.byte();
    if rng.chance(1, 3) && any != 0 && !can_be_driven(any, wires) {
        any
    } else {
        rng.pick(near)
    }
}

/// A list of requests.
pub fn request_list(seed: u64, count: usize) -> Vec<Request> {
    let mut asker = Asker::new(seed);
    (0..count).map(|_| asker.next()).collect()
}

/// A request file.
pub fn requests(seed: u64, count: usize) -> Vec<u8> {
    let mut asker = Asker::new(seed);
    let mut file = Vec::new();
    for _ in 0..count {
        file.extend(asker.next().to_bytes());
    }
    file
}
