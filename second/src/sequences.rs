//! Probes that go on from each other: a transaction that comes in chunks, with calls
//! among them that are refused.

use std::collections::{BTreeMap, BTreeSet};

use crate::answer::Answer;
use crate::chunked::grain;
use crate::compose::{compose, disturb, push_idle, Plan};
use crate::courses::{answered, through, Course};
use crate::device::{fresh, Record, MOST_CLOCKS};
use crate::parts::{Family, Part, PARTS};
use crate::probe::{Call, Over, Probe, Runner, Task};
use crate::rng::Rng;
use crate::rounds::Rounds;
use crate::spoil::whole_probe;
use crate::spots::{Phase, Spot, Why};

/// The most cuts that a sequence has for the sake of spots, and those by chance.
const MOST_SPOTS: usize = 22;
const MOST_CHANCE_CUTS: usize = 3;
/// Courses that are drawn for a spot.
const DRAFTS: usize = 8;

/// What a sequence is made for.
#[derive(Clone, Copy, PartialEq, Eq, PartialOrd, Ord, Debug)]
pub enum Aim {
    /// A cut at this spot.
    Cut(Spot),
    /// This answer at the close.
    Close(Answer),
    /// No clock at all.
    Empty,
    /// A chip and a transaction of any sort.
    Any,
}

/// A call that is put between the chunks of a transaction.
#[derive(Clone, Copy, PartialEq, Eq, Debug)]
enum Between {
    /// A good chunk without clocks.
    NoClocks,
    /// The chunk that comes next, with something wrong.
    ShortOutput,
    LessMemory,
    LessArea,
    BadSample,
    /// A call that is not for an open transaction; with less memory than there is
    /// it is refused before that is looked at.
    Meanwhile(Call),
    Smaller(Call),
    /// A whole transaction with a bad sample.
    BadTransaction,
    /// A fresh chip that is refused by 1; among calls over images alone.
    BadFresh,
}

/// Those that have to come on every part.
const FIRST_BETWEEN: [Between; 6] = [
    Between::NoClocks,
    Between::ShortOutput,
    Between::BadSample,
    Between::Meanwhile(Call::Open),
    Between::Meanwhile(Call::Transact),
    Between::Meanwhile(Call::PowerCycle),
];

/// Those that come beside them.
const MORE_BETWEEN: [Between; 7] = [
    Between::LessMemory,
    Between::LessArea,
    Between::Smaller(Call::Open),
    Between::Smaller(Call::Close),
    Between::Smaller(Call::Transact),
    Between::Smaller(Call::PowerCycle),
    Between::BadTransaction,
];

/// What the calls of a sequence go over.
#[derive(Clone, Copy, PartialEq, Eq, Debug)]
pub enum Mix {
    /// All of them over the same.
    All(Over),
    /// Each over the one or the other.
    Both,
}

/// A sequence in work. It runs as it grows, so that what comes later fits the record
/// in force.
struct Sequence<'a> {
    rng: &'a mut Rng,
    mix: Mix,
    part: &'static Part,
    memory_bytes: usize,
    probes: Vec<Probe>,
    runner: Runner,
    record: Record,
}

impl<'a> Sequence<'a> {
    fn new(rng: &'a mut Rng, mix: Mix, part: &'static Part, record: Record) -> Sequence<'a> {
        Sequence {
            rng,
            mix,
            part,
            memory_bytes: 1 << record.n,
            probes: Vec::new(),
            runner: Runner::default(),
            record,
        }
    }

    /// A call that lends what it should. The first one of the sequence has the image.
    fn plain(&mut self, call: Call, samples: &[u8]) -> Probe {
        let over = match self.mix {
            Mix::All(over) => over,
            Mix::Both => self.rng.pick(&[Over::Record, Over::Image]),
        };
        let mut probe = whole_probe(self.rng, call, self.part, self.record, samples.to_vec());
        probe.task = over.task(call);
        probe.memory_bytes = self.memory_bytes;
        if !self.probes.is_empty() {
            probe.goes_on = true;
            probe.image.clear();
        }
        probe
    }

    fn add(&mut self, probe: Probe) {
        let outcome = self.runner.run(&probe);
        if let Some(record) = outcome.and_then(|outcome| outcome.record()) {
            self.record = record;
        }
        self.probes.push(probe);
    }

    fn call(&mut self, call: Call, samples: &[u8]) {
        let probe = self.plain(call, samples);
        self.add(probe);
    }

    /// Less memory than there is.
    fn less(&mut self) -> usize {
        let whole = self.memory_bytes;
        self.rng.pick(&[whole - 1, whole / 2, 0])
    }

    /// The samples of some transaction for the record as it is.
    fn some_transaction(&mut self) -> Vec<u8> {
        let opcode = self.rng.pick(&self.part.opcodes());
        let plan = Plan::default();
        compose(self.rng, self.part, &self.record, opcode, &[], &plan)
    }

    /// The samples of a transaction with nothing wrong in it.
    fn sound_transaction(&mut self, opcode: u8) -> Vec<u8> {
        let plan = Plan::sound();
        compose(self.rng, self.part, &self.record, opcode, &[], &plan)
    }

    /// A fresh chip of this n.
    fn fresh_chip(&mut self, n: u8) {
        let plain = self.plain(Call::Open, &[]);
        let probe = fresh_into(self.rng, plain, self.part, n);
        self.add(probe);
    }

    /// Puts a call before this chunk.
    fn between(&mut self, between: Between, chunk: &[u8]) {
        let between = match between {
            // The PSRAM has no area to lend less of.
            Between::LessArea if self.part.area_bytes == 0 => Between::LessMemory,
            _ => between,
        };
        let mut probe = match between {
            Between::NoClocks => self.plain(Call::Feed, &[]),
            Between::ShortOutput | Between::LessMemory | Between::LessArea | Between::BadSample => {
                // Without a clock neither output nor samples could be wrong.
                self.plain(Call::Feed, if chunk.is_empty() { &[1] } else { chunk })
            }
            Between::Meanwhile(call) | Between::Smaller(call) => {
                let samples = if call.takes_samples() {
                    self.some_transaction()
                } else {
                    Vec::new()
                };
                self.plain(call, &samples)
            }
            Between::BadTransaction => {
                let samples = self.some_transaction();
                self.plain(Call::Transact, &samples)
            }
            Between::BadFresh => {
                let plain = self.plain(Call::Open, &[]);
                let n = self
                    .rng
                    .pick(&[0, self.part.least_n - 1, self.part.most_n + 1]);
                fresh_into(self.rng, plain, self.part, n)
            }
        };
        match between {
            Between::NoClocks | Between::Meanwhile(_) | Between::BadFresh => {}
            Between::ShortOutput => probe.output_bytes = probe.samples.len() - 1,
            Between::LessMemory | Between::Smaller(_) => probe.memory_bytes = self.less(),
            Between::LessArea => {
                probe.area_bytes = probe.area_bytes.saturating_sub(self.rng.pick(&[1, 1, 256]));
            }
            Between::BadSample | Between::BadTransaction => {
                let at = self.rng.below(probe.samples.len());
                if let Some(sample) = probe.samples.get_mut(at) {
                    *sample = self.rng.pick(&[16, 17, 31, 128, 255]);
                }
            }
        }
        self.add(probe);
    }

    /// A call that needs an open transaction where there is none.
    fn unopened(&mut self, call: Call) {
        let clocks = if call == Call::Feed {
            self.rng.below(9)
        } else {
            0
        };
        self.call(call, &vec![1; clocks]);
    }

    /// What comes behind the close, often a whole transaction that shows what is left.
    fn behind(&mut self) {
        match self.rng.below(20) {
            0 => self.call(Call::PowerCycle, &[]),
            1 => {
                self.call(Call::Open, &[]);
                self.call(Call::Close, &[]);
            }
            2..=9 => {
                let samples = self.some_transaction();
                self.call(Call::Transact, &samples);
            }
            _ => {}
        }
    }
}

/// The same probe with a fresh chip as its task, of this n and with numbers that have
/// the length they should.
pub fn fresh_into(rng: &mut Rng, probe: Probe, part: &'static Part, n: u8) -> Probe {
    Probe {
        task: Task::Fresh(part),
        n,
        identity_bytes: part.identity_bytes,
        unique_bytes: part.unique_bytes,
        samples: rng.bytes(part.identity_bytes + part.unique_bytes),
        ..probe
    }
}

/// The life of a chip: a call over an image that no valid record has, a fresh chip into
/// that image, which does something and goes through a power cycle and a reset that
/// comes in a chunk, and another fresh chip while a transaction is open.
pub fn life(rng: &mut Rng, part: &'static Part, flawed: Probe) -> Vec<Probe> {
    let n = part.least_n + rng.pick(&[0, 0, 1, 2, 3]);
    let record = fresh(part, n, [0; 8], [0; 8]);
    let mut sequence = Sequence::new(rng, Mix::All(Over::Image), part, record);
    sequence.add(Probe {
        memory_bytes: 1 << n,
        area_bytes: part.area_bytes,
        ..flawed
    });
    sequence.fresh_chip(n);
    // What makes the chip another one than a fresh one.
    for opcode in match part.family {
        Family::Mram => [0x06, 0x02],
        Family::Psram => [0x02, 0xB1],
    } {
        let samples = sequence.sound_transaction(opcode);
        sequence.call(Call::Transact, &samples);
    }
    sequence.call(Call::PowerCycle, &[]);
    let samples = sequence.sound_transaction(0x66);
    sequence.call(Call::Transact, &samples);
    sequence.call(Call::Open, &[]);
    let samples = sequence.sound_transaction(0x99);
    sequence.call(Call::Feed, &samples);
    sequence.call(Call::Close, &[]);
    sequence.call(Call::Open, &[]);
    let samples = sequence.sound_transaction(0x02);
    let clocks = sequence.rng.below(samples.len() + 1);
    sequence.call(Call::Feed, &samples[..clocks]);
    sequence.fresh_chip(n);
    sequence.call(Call::Close, &[]);
    sequence.behind();
    sequence.probes
}

/// Makes sequences one after the other. It keeps a list of what has to come and
/// works it off, so that nothing is left to chance.
pub struct Sequencer {
    over: Over,
    /// How far spots are told apart.
    grain: fn(Spot) -> Spot,
    aims: Rounds<(&'static Part, Aim)>,
    /// Spots and answers that no sequence has had yet, by part number.
    missing: BTreeSet<(u8, Aim)>,
    /// By part number.
    first_between: BTreeMap<u8, Rounds<Between>>,
    more_between: BTreeMap<u8, Rounds<Between>>,
    behind: BTreeMap<u8, Rounds<Call>>,
}

impl Sequencer {
    /// What has to come between chunks goes over this.
    pub fn new(closes: impl Fn(&Part) -> Vec<Answer>, over: Over) -> Sequencer {
        let grain = grain(over);
        let mut first_between = FIRST_BETWEEN.to_vec();
        if over == Over::Image {
            first_between.push(Between::BadFresh);
        }
        let mut aims = Vec::new();
        for part in PARTS {
            let spots: BTreeSet<Spot> = Spot::list(part).into_iter().map(grain).collect();
            let cuts = spots.into_iter().map(Aim::Cut);
            let closes = closes(part).into_iter().map(Aim::Close);
            let all = cuts.chain(closes).chain([Aim::Empty]);
            aims.extend(all.map(|aim| (part, aim)));
        }
        let missing = aims.iter().map(|&(part, aim)| (part.number, aim));
        let of_each_part = PARTS.map(|part| part.number);
        let first = |part: u8| (part, Rounds::new(first_between.clone()));
        let more = |part: u8| (part, Rounds::new(MORE_BETWEEN.to_vec()));
        let behind = |part: u8| (part, Rounds::new(vec![Call::Feed, Call::Close]));
        Sequencer {
            over,
            grain,
            missing: missing.collect(),
            aims: Rounds::new(aims),
            first_between: of_each_part.map(first).into_iter().collect(),
            more_between: of_each_part.map(more).into_iter().collect(),
            behind: of_each_part.map(behind).into_iter().collect(),
        }
    }

    /// What the next sequence is for, as long as it is missing; later on any
    /// transaction is as good as one for a spot.
    fn aim(&mut self, rng: &mut Rng) -> (&'static Part, Aim) {
        loop {
            let in_first_round = self.aims.in_first_round();
            let Some((part, aim)) = self.aims.take(rng) else {
                return (PARTS[0], Aim::Any);
            };
            if self.missing.contains(&(part.number, aim)) {
                return (part, aim);
            }
            if !in_first_round {
                let any = matches!(aim, Aim::Cut(_));
                return (part, if any { Aim::Any } else { aim });
            }
        }
    }

    /// The places on the way of a transaction at whose spots nothing has been cut yet,
    /// one for each spot; that of the aim comes first.
    fn missing_on(&self, course: &Course, aim: Aim) -> Vec<(usize, Spot)> {
        let mut seen = BTreeSet::new();
        let mut list = Vec::new();
        for clocks in 1..course.samples.len().min(400) {
            let spot = (self.grain)(course.spot(clocks));
            let key = (course.part.number, Aim::Cut(spot));
            if self.missing.contains(&key) && seen.insert(spot) {
                list.push((clocks, spot));
            }
        }
        list.sort_by_key(|&(_, spot)| aim != Aim::Cut(spot));
        list.truncate(MOST_SPOTS);
        list
    }

    /// A course for the aim; for a spot the one of some that passes the most spots
    /// which are missing.
    fn course(&self, rng: &mut Rng, part: &'static Part, aim: Aim) -> Course {
        match aim {
            Aim::Cut(spot) => {
                // Where only the phase is told any number of wires will do.
                let all_wires = match spot.wires {
                    0 => spot.phase.wires(part),
                    wires => vec![wires],
                };
                let draw = |rng: &mut Rng| {
                    let wires = rng.pick(&all_wires);
                    through(rng, part, spot.phase, wires)
                };
                let mut best = draw(rng);
                let mut most = self.missing_on(&best, aim).len();
                for _ in 1..DRAFTS {
                    let course = draw(rng);
                    let number = self.missing_on(&course, aim).len();
                    if number > most {
                        (best, most) = (course, number);
                    }
                }
                best
            }
            Aim::Close(answer) => answered(rng, part, answer),
            Aim::Empty => Course {
                samples: Vec::new(),
                ..answered(rng, part, Answer::Done)
            },
            Aim::Any => any_course(rng, part),
        }
    }

    /// Where the transaction is cut: at the spots on its way that are missing, and
    /// elsewhere by chance.
    fn cuts(&mut self, rng: &mut Rng, course: &Course, aim: Aim) -> Vec<usize> {
        let mut cuts = BTreeSet::new();
        for (first, spot) in self.missing_on(course, aim) {
            self.missing.remove(&(course.part.number, Aim::Cut(spot)));
            // Any place of the spot will do.
            let last = course.samples.len().min(first + 40);
            let here = |&clocks: &usize| (self.grain)(course.spot(clocks)) == spot;
            let places: Vec<usize> = (first..last).filter(here).collect();
            cuts.insert(rng.pick(&places));
        }
        let clocks = course.samples.len();
        let chance_cuts = if cuts.len() < 2 {
            rng.below(MOST_CHANCE_CUTS + 1)
        } else {
            0
        };
        if clocks > 1 {
            cuts.extend((0..chance_cuts).map(|_| 1 + rng.below(clocks - 1)));
        }
        cuts.into_iter().collect()
    }

    /// Whether some call that has to come between the chunks on this part has not.
    fn lacks_between(&self, part: &Part) -> bool {
        let first = self.first_between.get(&part.number);
        first.is_some_and(Rounds::in_first_round)
    }

    /// The next call to put between chunks.
    fn between(&mut self, rng: &mut Rng, part: &Part) -> Option<Between> {
        let lacking = self.lacks_between(part);
        let rounds = if lacking || rng.chance(1, 2) {
            &mut self.first_between
        } else {
            &mut self.more_between
        };
        rounds.get_mut(&part.number)?.take(rng)
    }

    /// Now and then, and as long as one of them has not come, a call behind the close
    /// that needs an open transaction.
    fn behind(&mut self, rng: &mut Rng, part: &Part) -> Option<Call> {
        let rounds = self.behind.get_mut(&part.number)?;
        if rounds.in_first_round() || rng.chance(1, 3) {
            rounds.take(rng)
        } else {
            None
        }
    }

    /// The next sequence. As long as some call has to come between chunks on its part,
    /// it goes over what the list is for.
    pub fn next(&mut self, rng: &mut Rng, mix: Mix) -> Vec<Probe> {
        let (part, aim) = self.aim(rng);
        let course = self.course(rng, part, aim);
        let nothing_missing = self.missing_on(&course, aim).is_empty();
        let mut cuts = self.cuts(rng, &course, aim);
        self.missing
            .remove(&(part.number, Aim::Close(course.answer())));
        if aim == Aim::Empty {
            self.missing.remove(&(part.number, aim));
        } else if self.missing.contains(&(part.number, aim)) {
            self.aims.put_back((part, aim));
        }
        let lacking = self.lacks_between(part);
        let mix = if lacking { Mix::All(self.over) } else { mix };
        // Calls over images are few, so that as long as something is missing nothing
        // comes that does not have to.
        let thrifty = self.over == Over::Image && !self.missing.is_empty();
        let resumes = nothing_missing && !lacking && !cuts.is_empty() && rng.chance(1, 3);
        let mut first = 0;
        let mut sequence = Sequence::new(rng, mix, part, course.record);
        if resumes {
            // Begins with one open, of which the record tells the facts.
            first = cuts.remove(0);
            sequence.record = course.standing(first);
        } else {
            if !thrifty && sequence.rng.chance(1, 20) {
                // None is open yet.
                let call = sequence.rng.pick(&[Call::Close, Call::Feed]);
                sequence.unopened(call);
            }
            sequence.call(Call::Open, &[]);
        }
        let mut ends = cuts;
        ends.push(course.samples.len());
        // The chunks before which another call comes; the last is the close. The first
        // probe of all lends the whole memory.
        let least = usize::from(resumes);
        let numbers: &[usize] = match (lacking, thrifty) {
            (true, _) => &[1, 1, 1, 2],
            (false, true) => &[0],
            (false, false) => &[0, 0, 1, 2],
        };
        let others: Vec<usize> = (0..sequence.rng.pick(numbers))
            .map(|_| least + sequence.rng.below(ends.len() + 1 - least))
            .collect();
        for number in 0..=ends.len() {
            let chunk = match ends.get(number) {
                Some(&end) => &course.samples[first..end],
                // Such a one is never fed.
                None => &[1, 0],
            };
            for _ in others.iter().filter(|&&at| at == number) {
                if let Some(between) = self.between(sequence.rng, part) {
                    sequence.between(between, chunk);
                }
            }
            let Some(&end) = ends.get(number) else {
                break;
            };
            // A transaction without clocks mostly has no chunk at all.
            if !chunk.is_empty() || sequence.rng.chance(1, 3) {
                sequence.call(Call::Feed, chunk);
            }
            first = end;
        }
        sequence.call(Call::Close, &[]);
        if let Some(call) = self.behind(sequence.rng, part) {
            sequence.unopened(call);
        }
        if !thrifty {
            sequence.behind();
        }
        sequence.probes
    }
}

/// A chip and a transaction of any sort, sound or cut, stretched and spoiled.
fn any_course(rng: &mut Rng, part: &'static Part) -> Course {
    let mut course = answered(rng, part, Answer::Done);
    if part.family == Family::Mram {
        course.record.latch = rng.chance(2, 3);
        course.record.asleep = rng.chance(1, 15);
    }
    course.record.armed = rng.chance(1, 2);
    let opcode = match rng.below(4) {
        0 => rng.byte(),
        _ => rng.pick(&part.opcodes()),
    };
    let plan = Plan {
        loose: rng.chance(1, 4),
        bad_value: rng.chance(1, 4),
        ..Plan::default()
    };
    course.samples = compose(rng, part, &course.record, opcode, &[], &plan);
    disturb(rng, &mut course.samples);
    // A bad sample would be refused with its whole chunk; that comes of itself.
    course.samples.iter_mut().for_each(|sample| *sample &= 0x0F);
    course
}

/// A transaction that comes to the most clocks there may be, has one more refused
/// and is closed.
pub fn brimful(rng: &mut Rng, part: &'static Part) -> Vec<Probe> {
    let phase = rng.pick(&[
        Phase::Memory,
        Phase::Memory,
        Phase::Read,
        Phase::Rest(Why::Unknown),
    ]);
    let wires = rng.pick(&phase.wires(part));
    let mut course = through(rng, part, phase, wires);
    let more = MOST_CLOCKS - course.samples.len();
    push_idle(rng, &mut course.samples, more, true);
    let samples = &course.samples;
    let mut cuts: BTreeSet<usize> = (0..3 + rng.below(5))
        .map(|_| 1 + rng.below(MOST_CLOCKS - 1))
        .collect();
    let last = MOST_CLOCKS - 1 - rng.below(30);
    cuts.insert(last);
    let mut sequence = Sequence::new(rng, Mix::All(Over::Record), part, course.record);
    sequence.call(Call::Open, &[]);
    let mut first = 0;
    for end in cuts.into_iter().chain([MOST_CLOCKS]) {
        if first == last {
            // One clock too many, beside chunks that each are short enough.
            let long = vec![0; MOST_CLOCKS + 1 - last];
            sequence.call(Call::Feed, &long);
        }
        sequence.call(Call::Feed, &samples[first..end]);
        first = end;
    }
    sequence.call(Call::Feed, &[1]);
    sequence.call(Call::Feed, &[]);
    sequence.call(Call::Close, &[]);
    sequence.behind();
    sequence.probes
}
