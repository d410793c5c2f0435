//! Seeded tapes and bundles.
//!
//! A tape is made while a chip of this model runs it, so that most transactions
//! are well-formed commands for the mode, latch and registers in force, and deep
//! states are reached. The rest are cut, stretched or spoiled on purpose.

use std::collections::BTreeMap;

use crate::answer::Answer;
use crate::compose::{compose, disturb, pick_address, pick_configurations, Plan};
use crate::device::{fresh, power_cycle, transact, Record};
use crate::edges::{Edge, Sent};
use crate::latched::Goal;
use crate::parts::{strangers, Family, Part, FIRST_FREE_NUMBER, M, M32, P, PARTS};
use crate::places::{share_bytes, wrap_length};
use crate::rng::Rng;
use crate::rounds::Rounds;
use crate::table::Data;
use crate::tape::{Chip, HEAD_BYTES, MOST_TAPE_BYTES, MOST_TAPE_N, MOST_TAPE_SAMPLES};

/// Part and n of fresh chips that no tape may have: no part at all, or an n that
/// the part or the tape does not take.
pub fn bad_chips() -> Vec<[u8; 2]> {
    let mut list = vec![[0, M.least_n], [FIRST_FREE_NUMBER, M.least_n]];
    for part in PARTS {
        let all_n = [part.least_n - 1, MOST_TAPE_N + 1, part.most_n];
        list.extend(all_n.map(|n| [part.number, n]));
    }
    list
}

/// What the tapes of one part have to show.
struct Work {
    /// Opcode and mode pairs of this round.
    pairs: Vec<(u8, u8)>,
    pair_rounds: usize,
    /// Writes with the latch up.
    latched: Rounds<Goal>,
    edges: Rounds<Edge>,
}

/// A list of `Work`.
#[derive(Clone, Copy)]
enum List {
    Pairs,
    Latched,
    Edges,
}

impl Work {
    fn new(part: &Part) -> Work {
        Work {
            pairs: Vec::new(),
            pair_rounds: 0,
            latched: Rounds::new(Goal::list(part)),
            edges: Rounds::new(Edge::on_tapes(part)),
        }
    }

    /// The next opcode and mode to try on this part. Opcodes of the part's table
    /// are tried in all modes, also where the table does not know them.
    fn pair(&mut self, rng: &mut Rng, part: &Part) -> (u8, u8) {
        let list = &mut self.pairs;
        if list.is_empty() {
            self.pair_rounds += 1;
            for opcode in part.opcodes() {
                for &mode in part.modes() {
                    list.push((opcode, mode));
                }
            }
            // A few of any value as well, most of them outside the table.
            for &mode in part.modes() {
                for _ in 0..4 {
                    list.push((rng.byte(), mode));
                }
            }
            // Going by mode saves moves between modes; the order within is drawn.
            rng.shuffle(list);
            list.sort_by_key(|&(_, mode)| mode);
        }
        list.pop().unwrap_or((0x66, 1))
    }

    /// The lists of which some have not had their first turn.
    fn open_lists(&self) -> Vec<List> {
        let pairs_open = self.pair_rounds == 0 || self.pair_rounds == 1 && !self.pairs.is_empty();
        let lists = [
            (List::Pairs, pairs_open),
            (List::Latched, self.latched.in_first_round()),
            (List::Edges, self.edges.in_first_round()),
        ];
        let open = lists.iter().filter(|(_, open)| *open);
        open.map(|&(list, _)| list).collect()
    }
}

/// Makes tapes one after the other. It keeps lists of what the tapes of each part
/// have to show and works them off across tapes, so that nothing is left to chance.
pub struct Maker {
    rng: Rng,
    parts: Rounds<&'static Part>,
    /// By part number.
    work: BTreeMap<u8, Work>,
    bad_chips: Rounds<[u8; 2]>,
}

impl Maker {
    pub fn new(seed: u64) -> Maker {
        Maker {
            rng: Rng::new(seed),
            parts: Rounds::new(vec![&M, &M, &M, &M32, &M32, &M32, &P, &P]),
            work: BTreeMap::new(),
            bad_chips: Rounds::new(bad_chips()),
        }
    }

    /// What this part has to show, and the chance to draw from it.
    fn work(&mut self, part: &Part) -> (&mut Work, &mut Rng) {
        let work = self.work.entry(part.number);
        (work.or_insert_with(|| Work::new(part)), &mut self.rng)
    }

    /// One tape of about so many records, never longer than a tape may be.
    pub fn tape(&mut self, records: usize) -> Vec<u8> {
        let mut tape = TapeInWork {
            maker: self,
            bytes: Vec::new(),
            records: 0,
            full: false,
            chip: None,
            hot: Vec::new(),
        };
        tape.fill(records);
        tape.bytes
    }

    /// One tape for a bundle: now and then one at or just past the longest
    /// length, or an empty one.
    fn tape_for_bundle(&mut self, records: usize) -> Vec<u8> {
        match self.rng.below(400) {
            0 => self.brimful_tape(MOST_TAPE_BYTES),
            1 => {
                let more = 1 + self.rng.below(2);
                self.brimful_tape(MOST_TAPE_BYTES + more)
            }
            2 | 3 => Vec::new(),
            _ => self.tape(records),
        }
    }

    /// A tape of exactly this length, mostly long transactions.
    fn brimful_tape(&mut self, length: usize) -> Vec<u8> {
        let mut tape = TapeInWork {
            maker: self,
            bytes: Vec::new(),
            records: 0,
            full: false,
            chip: None,
            hot: Vec::new(),
        };
        tape.fresh_chip();
        while length - tape.bytes.len() > 2 * (HEAD_BYTES + MOST_TAPE_SAMPLES) {
            tape.go_to_any_mode();
            tape.long();
        }
        let mut bytes = tape.bytes;
        while bytes.len() < length {
            // Junk of the right length; what is left after it holds a head again.
            let left = length - bytes.len();
            let samples = if left <= HEAD_BYTES + MOST_TAPE_SAMPLES {
                left - HEAD_BYTES
            } else {
                (left - 2 * HEAD_BYTES).min(MOST_TAPE_SAMPLES)
            };
            put_record(&mut bytes, samples, 1, &vec![3; samples]);
        }
        bytes
    }

    pub fn bundle(&mut self, tapes: usize, records: usize) -> Vec<u8> {
        let mut bundle = Vec::new();
        for _ in 0..tapes {
            let tape = self.tape_for_bundle(records);
            bundle.extend((tape.len() as u32).to_le_bytes());
            bundle.extend(tape);
        }
        bundle
    }
}

/// Adds one record with this length field, kind and payload, fitting or not.
fn put_record(bytes: &mut Vec<u8>, length: usize, kind: u16, payload: &[u8]) {
    bytes.extend((length as u16).to_le_bytes());
    bytes.extend(kind.to_le_bytes());
    bytes.extend(payload);
}

/// A tape while it is made, with the chip that has run it so far.
struct TapeInWork<'a> {
    maker: &'a mut Maker,
    bytes: Vec<u8>,
    records: usize,
    full: bool,
    chip: Option<Chip>,
    /// Addresses used before, to come back to.
    hot: Vec<u32>,
}

impl TapeInWork<'_> {
    fn rng(&mut self) -> &mut Rng {
        &mut self.maker.rng
    }

    /// The part in force. A tape in work always begins with a chip.
    fn part(&self) -> &'static Part {
        match &self.chip {
            Some(chip) => chip.part,
            None => &M,
        }
    }

    /// The record in force.
    fn record(&self) -> Record {
        match &self.chip {
            Some(chip) => chip.record,
            None => fresh(&M, M.least_n, [0; 8], [0; 8]),
        }
    }

    /// Adds a good record if it still fits.
    fn put(&mut self, kind: u16, payload: &[u8]) -> bool {
        if self.full || self.bytes.len() + HEAD_BYTES + payload.len() > MOST_TAPE_BYTES {
            self.full = true;
            return false;
        }
        put_record(&mut self.bytes, payload.len(), kind, payload);
        self.records += 1;
        true
    }

    /// Adds a fresh chip if it still fits.
    fn put_chip(&mut self, part: &'static Part, n: u8) -> bool {
        let fits = self.put(3, &[part.number, n]);
        if fits {
            self.chip = Some(Chip::fresh(part, n));
            self.hot.clear();
        }
        fits
    }

    fn fresh_chip(&mut self) {
        let part = self.maker.parts.take(&mut self.maker.rng).unwrap_or(&M);
        // Small memories keep the digests of long runs quick.
        let n = self
            .rng()
            .pick(&[10, 10, 10, 10, 10, 11, 11, 12, 12, 13, 14, 15]);
        if self.put_chip(part, n) && self.rng().chance(2, 3) {
            self.opening();
        }
    }

    /// Takes a fresh chip away from its first values, so that what follows meets
    /// waits, groups, write modes and protection of all kinds.
    fn opening(&mut self) {
        match self.part().family {
            Family::Mram => {
                for opcode in [0x87, 0x01, 0x1A] {
                    if self.rng().chance(2, 3) {
                        self.raise_latch();
                        self.plain(opcode);
                    }
                }
                // Some bytes to find again, so that a read from a wrong place shows.
                if self.rng().chance(1, 3) {
                    self.fill_some(0x42);
                }
            }
            Family::Psram => {
                if self.rng().chance(2, 3) {
                    self.plain(0xB1);
                }
                if self.rng().chance(1, 4) {
                    self.plain(0xC0);
                }
            }
        }
        self.go_to_any_mode();
        // The same in memory.
        if self.rng().chance(1, 2) {
            self.fill_some(0x02);
        }
    }

    /// Writes a burst of some dozen bytes and remembers where.
    fn fill_some(&mut self, opcode: u8) {
        let address = self.address(opcode);
        let bytes = 20 + self.rng().below(24);
        self.enable();
        let plan = Plan {
            address: Some(address),
            bytes: Some(bytes),
            ..Plan::default()
        };
        self.command(opcode, &plan);
    }

    fn power_cycle(&mut self) {
        if self.put(2, &[]) {
            if let Some(chip) = &mut self.chip {
                power_cycle(&mut chip.record, &mut chip.memory, &mut chip.area);
            }
        }
    }

    /// Sends a transaction as it is and tells its answer.
    fn send(&mut self, samples: &[u8]) -> Answer {
        let samples = &samples[..samples.len().min(MOST_TAPE_SAMPLES)];
        if !self.put(1, samples) {
            return Answer::Size;
        }
        let mut output = vec![0; samples.len()];
        match &mut self.chip {
            Some(chip) => {
                transact(
                    &mut chip.record,
                    &mut chip.memory,
                    &mut chip.area,
                    samples,
                    &mut output,
                )
                .0
            }
            None => Answer::Size,
        }
    }

    /// A command for the chip as it is now.
    fn samples_of(&mut self, opcode: u8, plan: &Plan) -> Vec<u8> {
        let (part, record) = (self.part(), self.record());
        compose(&mut self.maker.rng, part, &record, opcode, &self.hot, plan)
    }

    /// Sends a command with nothing wrong in it but what its own draw brings.
    fn command(&mut self, opcode: u8, plan: &Plan) -> Answer {
        let samples = self.samples_of(opcode, plan);
        self.send(&samples)
    }

    /// The same, sometimes cut, stretched or spoiled.
    fn rough_command(&mut self, opcode: u8, plan: &Plan) -> Answer {
        let mut samples = self.samples_of(opcode, plan);
        disturb(&mut self.maker.rng, &mut samples);
        self.send(&samples)
    }

    fn plain(&mut self, opcode: u8) -> Answer {
        self.command(opcode, &Plan::default())
    }

    /// Draws an address for a command now, so that it can be used twice.
    fn address(&mut self, opcode: u8) -> u32 {
        let (part, record) = (self.part(), self.record());
        let address = pick_address(&mut self.maker.rng, part, &record, opcode, &self.hot, false);
        if self.hot.len() >= 8 {
            self.hot.remove(0);
        }
        self.hot.push(address);
        address
    }

    fn wake(&mut self) {
        if self.record().asleep {
            self.plain(0xAB);
        }
    }

    fn go_to_mode(&mut self, mode: u8) {
        if self.record().mode == mode {
            return;
        }
        let opcode = match (self.part().family, mode) {
            (Family::Mram, 1) => 0xFF,
            (Family::Mram, 2) => 0x37,
            (Family::Mram, _) => 0x38,
            (Family::Psram, 1) => 0xF5,
            (Family::Psram, _) => 0x35,
        };
        self.plain(opcode);
    }

    fn go_to_any_mode(&mut self) {
        let modes = self.part().modes();
        let mode = self.rng().pick(modes);
        self.go_to_mode(mode);
    }

    /// Write enable where there is a latch and it is down.
    fn raise_latch(&mut self) {
        if self.part().family == Family::Mram && !self.record().latch {
            self.plain(0x06);
        }
    }

    /// The same before a write; sometimes it is left out.
    fn enable(&mut self) {
        if !self.rng().chance(1, 9) {
            self.raise_latch();
        }
    }

    /// Writes a register of the MRAM with these values.
    fn set(&mut self, opcode: u8, values: &[u8]) {
        self.raise_latch();
        let plan = Plan {
            values: Some(values.to_vec()),
            ..Plan::sound()
        };
        self.command(opcode, &plan);
    }

    fn go_to_write_mode(&mut self, write_mode: u8) {
        let part = self.part();
        if self.record().write_mode() != write_mode {
            let [first, second, third, _] = pick_configurations(self.rng(), part);
            self.set(0x87, &[first, second, third, 0x04 | write_mode]);
        }
    }

    fn fill(&mut self, records: usize) {
        if records == 0 {
            return;
        }
        if self.rng().chance(1, 50) {
            // A transaction or a power cycle before any chip. What stands behind it
            // is never read, so that no goal is worked off there.
            let payload = self.rng().bytes(4);
            let payload: Vec<u8> = payload.iter().map(|byte| byte & 0x0F).collect();
            if self.rng().chance(1, 2) {
                self.put(1, &payload);
            } else {
                self.put(2, &[]);
            }
            return self.fresh_chip();
        }
        self.fresh_chip();
        let damaged = self.rng().chance(2, 5);
        while self.records < records && !self.full {
            self.scene();
        }
        if damaged {
            self.damage();
            // What stands after a bad record is never read.
            if self.rng().chance(1, 3) {
                self.put(3, &[M.number, M.least_n]);
            }
        }
    }

    /// Ends the tape with a record that the reader must refuse.
    fn damage(&mut self) {
        let bytes = match self.bad_chip() {
            Some(payload) => {
                let mut bytes = Vec::new();
                put_record(&mut bytes, payload.len(), 3, &payload);
                bytes
            }
            None => self.bad_record(),
        };
        if self.bytes.len() + bytes.len() <= MOST_TAPE_BYTES {
            self.bytes.extend(bytes);
        }
    }

    /// The next fresh chip that no tape may have: always one as long as some have not
    /// had their turn, and one in four times after that.
    fn bad_chip(&mut self) -> Option<[u8; 2]> {
        let Maker { rng, bad_chips, .. } = &mut *self.maker;
        if bad_chips.in_first_round() || rng.chance(1, 4) {
            bad_chips.take(rng)
        } else {
            None
        }
    }

    /// Any record that the reader must refuse, cut or whole.
    fn bad_record(&mut self) -> Vec<u8> {
        let row = self.rng().pick(&PARTS);
        let (part, least_n) = (row.number, row.least_n);
        let n = least_n + self.rng().below(usize::from(MOST_TAPE_N - least_n) + 1) as u8;
        let mut bytes = Vec::new();
        match self.rng().below(16) {
            0 => bytes.extend([8u8, 0, 1, 0].iter().take(1 + self.maker.rng.below(3))),
            1 => put_record(&mut bytes, 8, 1, &vec![0; self.maker.rng.below(8)]),
            2 => put_record(&mut bytes, 2, 3, &[part]),
            3 => {
                let kind = self.rng().pick(&[0, 4, 5, 0x0101, 0x0103, 0x0300, 0xFFFF]);
                put_record(&mut bytes, 2, kind, &[part, n]);
            }
            4 => put_record(&mut bytes, 1, 2, &[0]),
            5 => put_record(&mut bytes, 2, 2, &[part, n]),
            6 => put_record(&mut bytes, 1, 3, &[part]),
            7 => put_record(&mut bytes, 3, 3, &[part, n, 0]),
            8 => put_record(&mut bytes, 0, 3, &[]),
            9 => put_record(&mut bytes, 2, 3, &[part, least_n - 1]),
            10 => put_record(&mut bytes, 2, 3, &[part, MOST_TAPE_N + 1]),
            11 => put_record(&mut bytes, 2, 3, &[0, n]),
            12 => put_record(&mut bytes, 2, 3, &[FIRST_FREE_NUMBER, n]),
            13 => {
                let more = self.rng().pick(&[1, 2, 100]);
                let samples = MOST_TAPE_SAMPLES + more;
                put_record(&mut bytes, samples, 1, &vec![1; samples]);
            }
            14 => {
                let (part, n) = (self.rng().byte(), self.rng().byte());
                put_record(&mut bytes, 2, 3, &[part | 0x80, n]);
            }
            _ => put_record(&mut bytes, 0xFFFF, 1, &[0; 12]),
        }
        bytes
    }

    /// One to some ten records that belong together.
    fn scene(&mut self) {
        if self.record().asleep && self.rng().chance(4, 5) {
            return self.asleep();
        }
        // As long as some lists have not been worked off, most scenes are off them.
        let part = self.part();
        let open_lists = self.maker.work(part).0.open_lists();
        if !open_lists.is_empty() && self.rng().chance(3, 4) {
            return match self.rng().pick(&open_lists) {
                List::Pairs => self.reach_goal(),
                List::Latched => self.write_with_latch_up(),
                List::Edges => self.go_to_an_edge(),
            };
        }
        match self.rng().below(200) {
            0..=59 => self.reach_goal(),
            60..=62 => self.fresh_chip(),
            63..=67 => self.power_scene(),
            68..=70 => {
                self.send(&[]);
            }
            71..=78 => self.stray(),
            79..=89 => self.reset_scene(),
            90 | 91 => self.long(),
            _ => match self.part().family {
                Family::Mram => self.scene_of_mram(),
                Family::Psram => self.scene_of_psram(),
            },
        }
    }

    /// Brings the chip to where the next opcode and mode pair can work, and sends it.
    fn reach_goal(&mut self) {
        let part = self.part();
        let (work, rng) = self.maker.work(part);
        let (opcode, mode) = work.pair(rng, part);
        self.wake();
        self.go_to_mode(mode);
        let command = part.command(opcode, mode);
        if let Some(command) = command {
            match command.data {
                Data::WriteFixed(_) | Data::WriteRunning => self.enable(),
                _ => {}
            }
        }
        if opcode == 0x99 && !self.rng().chance(1, 8) {
            self.plain(0x66);
        }
        let answer = self.rough_command(opcode, &Plan::default());
        // A draw that failed is tried once more with nothing wrong, so that each pair
        // gets its 0, or its 5 where the table does not know it.
        let wanted = match command {
            Some(_) => Answer::Done,
            None => Answer::Unknown,
        };
        if answer != wanted {
            match opcode {
                0x99 => {
                    self.plain(0x66);
                }
                0x01 | 0x1A | 0x87 | 0xC2 | 0x02 | 0x42 => self.raise_latch(),
                _ => {}
            }
            self.command(opcode, &Plan::sound());
        }
        if self.record().asleep {
            // It hears AB alone.
            let all = part.opcodes();
            let other = self.rng().pick(&all);
            self.command(other, &Plan::default());
        }
    }

    /// Opcodes outside the table: any, another family's, near misses, noise.
    fn stray(&mut self) {
        match self.rng().below(5) {
            0 => {
                let opcode = self.rng().byte();
                self.rough_command(opcode, &Plan::default());
            }
            1 => {
                let strangers = strangers(self.part().number);
                let opcodes = self.rng().pick(&strangers).opcodes();
                let opcode = self.rng().pick(&opcodes);
                self.rough_command(opcode, &Plan::default());
            }
            2 => {
                let opcode = self.rng().pick(&[
                    0x0A, 0xA2, 0x71, 0xBA, 0x0B, 0xDA, 0x0D, 0x9E, 0x67, 0x98, 0xC1, 0x86,
                ]);
                self.rough_command(opcode, &Plan::default());
            }
            3 => {
                let clocks = self.rng().below(48);
                let samples: Vec<u8> = (0..clocks).map(|_| self.rng().byte() & 0x0F).collect();
                self.send(&samples);
            }
            _ => {
                // One sample above 15 anywhere, or many of them.
                let clocks = 1 + self.rng().below(20);
                let mut samples = self.rng().bytes(clocks);
                if self.rng().chance(2, 3) {
                    samples.iter_mut().for_each(|sample| *sample &= 0x0F);
                    let at = self.rng().below(clocks);
                    samples[at] = 16;
                }
                self.send(&samples);
            }
        }
    }

    /// Something that a reset and a power cycle take back: a latch or a toggle.
    fn something_to_lose(&mut self) {
        self.plain(match self.part().family {
            Family::Mram => 0x06,
            Family::Psram => 0xC0,
        });
    }

    /// A power cycle, most often of a chip that has something to lose.
    fn power_scene(&mut self) {
        if self.rng().chance(1, 2) {
            self.go_to_any_mode();
        }
        if self.rng().chance(1, 2) {
            self.something_to_lose();
        }
        self.power_cycle();
    }

    /// The ways in which a reset comes about or is missed.
    fn reset_scene(&mut self) {
        if self.rng().chance(1, 2) {
            self.go_to_any_mode();
        }
        if self.rng().chance(1, 3) {
            self.something_to_lose();
        }
        let way = self.rng().below(13);
        let enable = self.samples_of(0x66, &Plan::default());
        let reset = self.samples_of(0x99, &Plan::default());
        let stretched = |samples: &[u8]| [samples, &[0]].concat();
        let cut = |samples: &[u8]| samples[..samples.len() - 1].to_vec();
        let spoiled = |samples: &[u8]| [samples, &[0x10]].concat();
        match way {
            0 | 1 => {
                self.send(&enable);
            }
            2 => {
                self.send(&enable);
                self.send(&enable);
            }
            3 => {
                self.send(&enable);
                let opcode = if self.rng().chance(1, 3) {
                    self.rng().pick(&[0xAB, 0x00, 0x06])
                } else {
                    let all = self.part().opcodes();
                    self.rng().pick(&all)
                };
                self.command(opcode, &Plan::default());
                // The mode may have changed in between.
                self.plain(0x99);
                return;
            }
            4 => {
                self.send(&stretched(&enable));
            }
            5 => {
                self.send(&enable);
                self.send(&spoiled(&enable));
            }
            6 => {
                self.send(&enable);
                self.send(&[]);
            }
            7 => {
                self.send(&enable);
                self.power_cycle();
                self.plain(0x99);
                return;
            }
            8 => {
                self.send(&enable);
                self.send(&stretched(&reset));
            }
            9 => {
                self.send(&cut(&enable));
            }
            10 => {
                self.send(&enable);
                self.send(&cut(&reset));
            }
            11 => {
                self.send(&stretched(&reset));
            }
            _ => {}
        }
        self.send(&reset);
        if self.rng().chance(1, 4) {
            self.plain(0x99);
        }
    }

    /// A sleeping chip: it hears AB alone.
    fn asleep(&mut self) {
        let wake = self.samples_of(0xAB, &Plan::default());
        match self.rng().below(12) {
            0 | 1 => {
                let all = self.part().opcodes();
                let opcode = self.rng().pick(&all);
                self.rough_command(opcode, &Plan::default());
            }
            2 => {
                let opcode = self.rng().byte();
                self.command(opcode, &Plan::default());
            }
            3 => {
                self.send(&[&wake[..], &[0]].concat());
            }
            4 => {
                self.send(&wake[..wake.len() - 1]);
            }
            5 | 6 => {
                let opcode = self.rng().pick(&[0x66, 0x99, 0xB9, 0x05, 0x03]);
                self.command(opcode, &Plan::default());
            }
            7 if self.rng().chance(1, 3) => self.power_cycle(),
            _ => {
                self.send(&wake);
            }
        }
    }

    /// A burst of some hundreds or thousands of clocks.
    fn long(&mut self) {
        self.wake();
        let (part, mode) = (self.part(), self.record().mode);
        let mut running = part.opcodes();
        running.retain(|&opcode| {
            let data = part.command(opcode, mode).map(|command| command.data);
            matches!(data, Some(Data::ReadRunning | Data::WriteRunning))
        });
        let opcode = self.rng().pick(&running);
        self.enable();
        let long_clocks = if self.rng().chance(1, 3) {
            MOST_TAPE_SAMPLES
        } else {
            300 + self.rng().below(MOST_TAPE_SAMPLES - 300)
        };
        let address = self.address(opcode);
        self.command(
            opcode,
            &Plan {
                address: Some(address),
                long_clocks,
                ..Plan::default()
            },
        );
    }

    fn scene_of_mram(&mut self) {
        match self.rng().below(120) {
            0..=6 => self.across_a_group(),
            7..=35 => {
                // Memory: write, and read back the same place on one wire.
                let address = self.address(0x02);
                let plan = Plan {
                    address: Some(address),
                    ..Plan::default()
                };
                self.enable();
                self.rough_command(0x02, &plan);
                if self.rng().chance(1, 3) {
                    self.rough_command(0x02, &Plan::default());
                }
                if self.rng().chance(1, 2) {
                    if self.rng().chance(3, 4) {
                        self.go_to_mode(1);
                    }
                    self.rough_command(0x03, &plan);
                }
            }
            36..=46 => {
                // The area, which only mode 1 reaches.
                self.go_to_mode(1);
                let address = self.address(0x42);
                let plan = Plan {
                    address: Some(address),
                    ..Plan::default()
                };
                self.enable();
                self.rough_command(0x42, &plan);
                if self.rng().chance(2, 3) {
                    self.rough_command(0x4B, &plan);
                }
            }
            47..=55 => {
                self.enable();
                self.rough_command(0x87, &Plan::default());
                if self.rng().chance(1, 3) {
                    self.rough_command(0x46, &Plan::default());
                }
            }
            56..=63 => {
                self.enable();
                self.rough_command(0x01, &Plan::default());
                // Bursts about the new border.
                for _ in 0..self.rng().below(3) {
                    self.enable();
                    self.rough_command(0x02, &Plan::default());
                }
            }
            64..=67 => {
                self.enable();
                self.rough_command(0x1A, &Plan::default());
            }
            68 | 69 => {
                self.enable();
                self.rough_command(0xC2, &Plan::default());
                self.rough_command(0xC3, &Plan::default());
            }
            70..=75 => {
                self.rough_command(0xB9, &Plan::default());
                self.asleep();
            }
            76..=79 => self.edge_of_protection(),
            80..=83 => self.wrong_value(),
            84..=88 => {
                // Any register, with the latch up or down to be seen.
                if self.rng().chance(1, 2) {
                    let opcode = self.rng().pick(&[0x06, 0x04]);
                    self.plain(opcode);
                }
                for _ in 0..1 + self.rng().below(3) {
                    self.rough_command(0x65, &Plan::default());
                }
            }
            89 | 90 => self.go_to_any_mode(),
            91..=93 => {
                let opcode = self.rng().pick(&[0x06, 0x04, 0x00]);
                self.rough_command(opcode, &Plan::default());
            }
            94..=107 => self.write_with_latch_up(),
            108..=115 => self.go_to_an_edge(),
            _ => {
                let all = self.part().opcodes();
                let opcode = self.rng().pick(&all);
                self.rough_command(opcode, &Plan::default());
            }
        }
    }

    /// The next write of the list of those with the latch up, and a status read,
    /// which shows the latch after it. Behind a register write answered 0 comes a
    /// memory write, which shows it too where it needs the latch.
    fn write_with_latch_up(&mut self) {
        let part = self.part();
        let (work, rng) = self.maker.work(part);
        let Some(goal) = work.latched.take(rng).map(|goal| goal.draw(rng)) else {
            return;
        };
        self.wake();
        if goal.opcode == 0x42 {
            // The area, which only mode 1 reaches.
            self.go_to_mode(1);
        }
        self.go_to_write_mode(goal.write_mode);
        let record = self.record();
        if let Some((opcode, value)) = goal.needed_first(self.rng(), part, &record) {
            self.set(opcode, &[value]);
        }
        self.raise_latch();
        let record = self.record();
        let samples = goal.samples(self.rng(), part, &record);
        self.send(&samples);
        self.command(0x05, &Plan::sound());
        if goal.is_register_write_done() {
            self.command(0x02, &Plan::sound());
        }
    }

    /// The next of the list of edges. One that did not come off is tried again.
    fn go_to_an_edge(&mut self) {
        let part = self.part();
        let (work, rng) = self.maker.work(part);
        let Some(edge) = work.edges.take(rng) else {
            return;
        };
        let opcode = edge.opcode();
        let least_n = edge.least_n(part);
        self.wake();
        if self.record().n < least_n {
            let more = self.rng().below(2) as u8;
            self.put_chip(part, least_n + more);
        }
        if part.command(opcode, self.record().mode).is_none() {
            // Memory reads and the area are for mode 1 alone.
            self.go_to_mode(1);
        }
        let record = self.record();
        for (opcode, values) in edge.needed_first(self.rng(), part, &record) {
            self.set(opcode, &values);
        }
        let record = self.record();
        let aim = edge.aim(self.rng(), part, &record);
        for (opcode, plan) in &aim.marks {
            self.raise_latch();
            self.command(*opcode, plan);
        }
        if matches!(opcode, 0x87 | 0x42 | 0x02) {
            self.raise_latch();
        }
        let before = self.record();
        let samples = self.samples_of(opcode, &aim.plan);
        let answer = self.send(&samples);
        let reached = self.chip.as_ref().is_some_and(|chip| {
            let sent = Sent::new(&before, &samples, answer, &chip.memory, &chip.area);
            sent.is_some_and(|sent| sent.shows(edge))
        });
        if !reached {
            self.maker.work(part).0.edges.put_back(edge);
        }
    }

    /// Bytes about both ends of a group, and a read over the end of it: where the
    /// read goes on shows whether it wraps, and how far back. The area has the
    /// same read, though it never wraps in a group.
    fn across_a_group(&mut self) {
        self.go_to_mode(1);
        if self.record().configurations[2] & 0x10 == 0 && self.rng().chance(3, 4) {
            self.enable();
            self.plain(0x87);
        }
        let (part, record) = (self.part(), self.record());
        let group = match wrap_length(part, &record) {
            Some(length) => length,
            None => self.rng().pick(part.wrap_lengths),
        };
        let (write, read, size) = if self.rng().chance(1, 3) {
            (0x42, 0x4B, part.area_bytes)
        } else {
            (0x02, 0x03, 1 << record.n)
        };
        // A group may be longer than the area.
        let group = group.min(size);
        let first = group * self.rng().below(size / group);
        let end = first + group;
        let start = end - 1 - self.rng().below(3);
        let length = 4 + self.rng().below(4);
        let plan = |address: usize, bytes: usize| Plan {
            address: Some(address as u32),
            bytes: Some(bytes),
            ..Plan::default()
        };
        self.enable();
        self.command(write, &plan(end - 3, 6));
        self.enable();
        self.command(write, &plan(first, 3));
        self.rough_command(read, &plan(start, length));
    }

    /// A burst that lies in protected bytes to the last one, with a few clocks
    /// of one more byte that would not be protected.
    fn edge_of_protection(&mut self) {
        let (part, record) = (self.part(), self.record());
        let bytes = 1 + self.rng().below(4);
        let (opcode, end) = if record.mode == 1 && self.rng().chance(1, 3) {
            let sections = part.area_bytes / part.section_bytes;
            (0x42, part.section_bytes * (1 + self.rng().below(sections)))
        } else if record.status & 0x20 == 0 {
            (0x02, 1 << record.n)
        } else {
            (0x02, share_bytes(&record))
        };
        let plan = Plan {
            address: Some(end.saturating_sub(bytes) as u32),
            bytes: Some(bytes),
            loose: true,
            ..Plan::default()
        };
        self.enable();
        self.command(opcode, &plan);
    }

    /// A register write with a value that is not allowed, often with the latch
    /// down or with a clock too many as well.
    fn wrong_value(&mut self) {
        let opcode = self.rng().pick(&[0x01, 0x87, 0x87]);
        let latch = self.rng().pick(&[0x06, 0x04]);
        self.plain(latch);
        let plan = Plan {
            bad_value: true,
            ..Plan::default()
        };
        self.rough_command(opcode, &plan);
        // Once more, now that nothing else stands in the way.
        if self.rng().chance(1, 2) {
            self.plain(0x06);
            self.command(opcode, &plan);
        }
    }

    fn scene_of_psram(&mut self) {
        match self.rng().below(100) {
            0..=54 => {
                // Write somewhere and read it back, any write and any read.
                let address = self.address(0x02);
                let plan = Plan {
                    address: Some(address),
                    ..Plan::default()
                };
                let write = self.rng().pick(&[0x02, 0x82, 0x38]);
                self.rough_command(write, &plan);
                if self.rng().chance(1, 4) {
                    self.go_to_any_mode();
                }
                let read = self.rng().pick(&[0x03, 0x0B, 0xEB, 0x8B]);
                self.rough_command(read, &plan);
            }
            55..=66 => {
                let plan = Plan {
                    bad_value: self.rng().chance(1, 4),
                    ..Plan::default()
                };
                self.rough_command(0xB1, &plan);
                if self.rng().chance(1, 3) {
                    self.rough_command(0xB5, &Plan::default());
                }
            }
            67..=74 => {
                self.rough_command(0xC0, &Plan::default());
            }
            75..=82 => self.go_to_any_mode(),
            _ => {
                let all = self.part().opcodes();
                let opcode = self.rng().pick(&all);
                self.rough_command(opcode, &Plan::default());
            }
        }
    }
}

/// One tape from a seed.
pub fn tape(seed: u64, records: usize) -> Vec<u8> {
    Maker::new(seed).tape(records)
}

/// One bundle from a seed.
pub fn bundle(seed: u64, tapes: usize, records: usize) -> Vec<u8> {
    Maker::new(seed).bundle(tapes, records)
}
