//! Seeded probes: valid records in all states, and records and sizes in which one
//! or two things are wrong, about a quarter of them over images; most are off lists of
//! what has to come.

use std::collections::VecDeque;

use crate::answer::{Answer, Class};
use crate::compose::{compose, disturb, push_idle, Plan};
use crate::courses::{answered, Course};
use crate::coverage::{can_answer, ON_TRANSACTION};
use crate::device::{Record, MOST_CLOCKS};
use crate::doing::store_register;
use crate::edges::Edge;
use crate::facts::Open;
use crate::flaws::{good_probe, Flaw};
use crate::image::image_of;
use crate::images::{all_faults, faulty_probe, Birth};
use crate::latched::{Goal, Latched};
use crate::limits::{Limit, MOST_MADE_N};
use crate::parts::{others, strangers, Family, Part, FIRST_FREE_NUMBER, M, M32, P, PARTS};
use crate::probe::{Call, Over, Probe, Task, CALLS};
use crate::records::{ready_record, spoil_record, valid_record};
use crate::refusals::{Brink, Fault, Wanted, BRINKS};
use crate::rng::Rng;
use crate::rounds::{Rounds, Shares};
use crate::sequences::{brimful, Mix, Sequencer};
use crate::spots::Phase;
use crate::standing::{
    any_standing, damaged_probe, largest_list, largest_probe, standing_probe, Damage,
};

/// Sets an n that is out of the part's range, or a part that is not one.
pub fn spoil_limits(rng: &mut Rng, part: &Part, probe: &mut Probe) {
    let free = FIRST_FREE_NUMBER;
    match rng.below(5) {
        0 => {
            // The memory has the size that this n would have.
            let n = part.least_n - 1;
            probe.edit(|record| record.n = n);
            probe.memory_bytes = 1 << n;
        }
        1 => probe.edit(|record| record.n = part.most_n + 1),
        2 => probe.edit(|record| record.n = rng.pick(&[0, 1, 8, 23, 24, 32, 63, 64, 255])),
        3 => probe.edit(|record| record.part = rng.pick(&[0, free, free + 1, 255])),
        _ => {
            // Another part, with that part's area: every foreign field is left.
            let other = rng.pick(&others(part.number));
            probe.edit(|record| record.part = other.number);
            if rng.chance(1, 2) {
                probe.area_bytes = other.area_bytes;
            }
        }
    }
}

/// Makes one buffer a wrong size.
pub fn spoil_sizes(rng: &mut Rng, probe: &mut Probe) {
    const MOST: usize = 1 << MOST_MADE_N;
    match rng.below(8) {
        0 => probe.memory_bytes = (probe.memory_bytes + 1).min(MOST - 1),
        1 => probe.memory_bytes = probe.memory_bytes.saturating_sub(1),
        2 => probe.memory_bytes /= 2,
        3 => probe.memory_bytes = rng.pick(&[0, 1, 1000]),
        4 => probe.area_bytes = rng.pick(&[0, 1, 32, 64, 255, 256, 257, 511, 512, 513, 600]),
        5 if probe.memory_bytes < MOST => probe.memory_bytes *= 2,
        _ => probe.output_bytes = probe.samples.len().saturating_sub(1 + rng.below(2)),
    }
}

/// Changes one thing about the open transaction, or about none, into something that
/// may fit or not.
fn spoil_facts(rng: &mut Rng, open: &mut Open) {
    let bit = rng.below(32);
    match rng.below(7) {
        0 => open.flag = !open.flag,
        1 => open.clocks = open.clocks.wrapping_add(1),
        2 => open.clocks = open.clocks.wrapping_sub(1),
        3 => open.opcode ^= 1 << (bit % 8),
        4 => open.address ^= 1 << bit,
        5 => open.number ^= 1 << (bit / 2),
        _ => open.value[bit % 8] ^= 1 << (bit / 4),
    }
}

/// A probe that lends what the record and the samples need.
pub fn whole_probe(
    rng: &mut Rng,
    call: Call,
    part: &Part,
    record: Record,
    samples: Vec<u8>,
) -> Probe {
    Probe {
        task: Task::Record(call),
        goes_on: false,
        seed: rng.byte(),
        n: 0,
        image: image_of(&record),
        memory_bytes: 1 << record.n,
        area_bytes: part.area_bytes,
        output_bytes: samples.len() + rng.pick(&[0, 0, 0, 1, 2, 7]),
        identity_bytes: 0,
        unique_bytes: 0,
        samples,
    }
}

/// A write that finds the latch up and gets its answer.
fn latched_probe(rng: &mut Rng, part: &Part, goal: Latched) -> Probe {
    let mut record = ready_record(rng, part);
    record.configurations[3] = 0x04 | goal.write_mode;
    if goal.opcode == 0x42 {
        // The area, which only mode 1 reaches.
        record.mode = 1;
    }
    match goal.needed_first(rng, part, &record) {
        Some((0x01, value)) => record.status = value,
        Some((_, value)) => record.area_protection = value,
        None => {}
    }
    let samples = goal.samples(rng, part, &record);
    whole_probe(rng, Call::Transact, part, record, samples)
}

/// A transaction at a limit of the part.
fn edge_probe(rng: &mut Rng, part: &Part, edge: Edge) -> Probe {
    let mut record = ready_record(rng, part);
    record.n = record.n.max(edge.least_n(part));
    if part.command(edge.opcode(), record.mode).is_none() {
        // Memory reads and the area are for mode 1 alone.
        record.mode = 1;
    }
    for (opcode, values) in edge.needed_first(rng, part, &record) {
        store_register(part, &mut record, opcode, &values);
    }
    let mut plan = edge.aim(rng, part, &record).plan;
    if let Edge::Group(code) = edge {
        // Some go all the way round as well.
        if rng.chance(1, 3) {
            let group = part.wrap_lengths[usize::from(code)];
            plan.bytes = plan.bytes.map(|bytes| bytes + group);
        }
    }
    let samples = compose(rng, part, &record, edge.opcode(), &[], &plan);
    whole_probe(rng, Call::Transact, part, record, samples)
}

/// A size, a number or a code at a limit of the part.
fn limit_probe(rng: &mut Rng, part: &Part, limit: Limit) -> Probe {
    if let Limit::Large(opcode, address, status) = limit {
        return large_probe(rng, part, opcode, address, status);
    }
    let mut record = ready_record(rng, part);
    record.n = part.least_n + rng.below(3) as u8;
    if let Limit::Code(code) = limit {
        record.configurations[2] = record.configurations[2] & 0xF8 | code;
    }
    let call = rng.pick(&[
        Call::Transact,
        Call::Transact,
        Call::Transact,
        Call::PowerCycle,
        Call::Open,
    ]);
    let samples = if call.takes_samples() {
        let opcode = rng.pick(&part.opcodes());
        compose(rng, part, &record, opcode, &[], &Plan::sound())
    } else {
        Vec::new()
    };
    let mut probe = whole_probe(rng, call, part, record, samples);
    match limit {
        Limit::Area(bytes) => probe.area_bytes = bytes,
        Limit::N(n) => {
            probe.edit(|record| record.n = n);
            if n <= MOST_MADE_N {
                probe.memory_bytes = 1 << n;
            }
        }
        Limit::Memory(more) => probe.memory_bytes = (probe.memory_bytes as i64 + more) as usize,
        Limit::NoPart(number) => probe.edit(|record| record.part = number),
        Limit::Code(_) | Limit::Large(..) => {}
    }
    probe
}

/// A burst in the part's largest memory.
fn large_probe(rng: &mut Rng, part: &Part, opcode: u8, address: u32, status: u8) -> Probe {
    let mut record = ready_record(rng, part);
    record.n = part.most_n;
    record.status = status;
    // A read runs straight on.
    record.configurations[2] &= !0x10;
    if part.command(opcode, record.mode).is_none() {
        record.mode = 1;
    }
    let plan = Plan {
        address: Some(address),
        bytes: Some(2 + rng.below(4)),
        ..Plan::sound()
    };
    let samples = compose(rng, part, &record, opcode, &[], &plan);
    whole_probe(rng, Call::Transact, part, record, samples)
}

/// Part, mode and opcode of a command, known in this mode or not.
type Pair = (&'static Part, u8, u8);

/// Each part's opcodes in each of its modes, and two that its table does not have.
fn all_pairs(rng: &mut Rng) -> Vec<Pair> {
    let mut list = Vec::new();
    for part in PARTS {
        let table = part.opcodes();
        let outside: Vec<u8> = (0..=255).filter(|opcode| !table.contains(opcode)).collect();
        for &mode in part.modes() {
            list.extend(table.iter().map(|&opcode| (part, mode, opcode)));
            for _ in 0..2 {
                list.push((part, mode, rng.pick(&outside)));
            }
        }
    }
    rng.shuffle(&mut list);
    list
}

/// A command with nothing wrong in it, to a chip that is ready for it: where the
/// table knows the command it is answered 0.
fn sound_probe(rng: &mut Rng, (part, mode, opcode): Pair) -> Probe {
    loop {
        let mut record = ready_record(rng, part);
        record.mode = mode;
        record.armed |= opcode == 0x99;
        let samples = compose(rng, part, &record, opcode, &[], &Plan::sound());
        let course = Course {
            part,
            record,
            samples,
        };
        // A burst may have found all its places protected.
        if course.answer() != Answer::Protected {
            return whole_probe(rng, Call::Transact, part, record, course.samples);
        }
    }
}

/// Any call with none open: mostly a transaction.
fn closed_probe(rng: &mut Rng, part: &Part) -> Probe {
    let record = valid_record(rng, part);
    let call = match rng.below(24) {
        0 | 1 => Call::PowerCycle,
        2 => rng.pick(&[Call::Open, Call::Feed, Call::Close]),
        _ => Call::Transact,
    };
    let (is_mram, is_psram) = (part.family == Family::Mram, part.family == Family::Psram);
    let opcode = match rng.below(40) {
        0 => rng.byte(),
        1 => {
            let stranger = rng.pick(&strangers(part.number));
            rng.pick(&stranger.opcodes())
        }
        2 | 3 => 0x99,
        4..=19 if record.asleep => 0xAB,
        // Writes have the most ways to end, so they come more often.
        20..=29 if is_mram => rng.pick(&[0x01, 0x1A, 0x87, 0xC2, 0x02, 0x02, 0x42]),
        30 | 31 if is_mram => 0x65,
        32..=34 if is_mram => rng.pick(&[0x03, 0x03, 0x4B]),
        20..=29 if is_psram => rng.pick(&[0xB1, 0xB1, 0xB1, 0xB5, 0x02, 0x82, 0x38]),
        _ => rng.pick(&part.opcodes()),
    };
    let mut samples = Vec::new();
    if call.takes_samples() || rng.chance(1, 8) {
        let size = 1u32 << record.n;
        let hot = [0, size / 2, size - 1, size - 16, size / 4];
        let plan = Plan {
            loose: rng.chance(1, 6),
            bad_value: rng.chance(1, 4),
            ..Plan::default()
        };
        samples = compose(rng, part, &record, opcode, &hot, &plan);
        disturb(rng, &mut samples);
        match rng.below(400) {
            // A little too long, whatever it is.
            9..=33 => {
                let more = 1 + rng.below(9);
                push_idle(rng, &mut samples, more, true);
            }
            // The most clocks there may be, and one more.
            0 | 1 => {
                let more = MOST_CLOCKS - samples.len();
                push_idle(rng, &mut samples, more, true);
            }
            2 => {
                let more = MOST_CLOCKS + 1 - samples.len();
                push_idle(rng, &mut samples, more, true);
                if rng.chance(1, 3) {
                    samples[0] = 16;
                }
            }
            // Round a whole memory or a large group.
            3..=8 => {
                let more = 1000 + rng.below(4000);
                push_idle(rng, &mut samples, more, true);
            }
            _ => {}
        }
    }
    whole_probe(rng, call, part, record, samples)
}

/// Any probe.
pub fn any_probe(rng: &mut Rng) -> Probe {
    let part = rng.pick(&[&M, &M, &M, &M32, &M32, &M32, &P, &P]);
    let mut probe = if rng.chance(1, 4) {
        let call = rng.pick(&CALLS);
        any_standing(rng, part, call)
    } else {
        closed_probe(rng, part)
    };
    // A power cycle has few ways to go wrong, so it is spoiled more often.
    let spoiled = match probe.task.call() {
        Some(Call::PowerCycle) => rng.chance(1, 2),
        _ => rng.chance(1, 4),
    };
    if spoiled {
        for _ in 0..1 + rng.below(2) {
            match rng.below(10) {
                0..=4 => probe.edit(|record| spoil_record(rng, record)),
                5 => probe.edit(|record| spoil_facts(rng, &mut record.open)),
                6 => spoil_limits(rng, part, &mut probe),
                7 | 8 => spoil_sizes(rng, &mut probe),
                _ => {
                    if !probe.samples.is_empty() {
                        let at = rng.below(probe.samples.len());
                        probe.samples[at] = rng.pick(&[16, 18, 240, 255]);
                    }
                }
            }
        }
    }
    probe
}

/// A whole transaction that gets this answer.
fn answered_probe(rng: &mut Rng, part: &'static Part, answer: Answer) -> Probe {
    let course = answered(rng, part, answer);
    whole_probe(rng, Call::Transact, part, course.record, course.samples)
}

/// A transaction or a sequence of the most clocks there may be, or one more.
#[derive(Clone, Copy)]
enum Long {
    /// A whole transaction of so many clocks.
    Whole(usize),
    /// A chunk of so many clocks with none open.
    Unopened(usize),
    Chunks,
}

fn long_probes(rng: &mut Rng, part: &'static Part, long: Long) -> Vec<Probe> {
    match long {
        Long::Chunks => brimful(rng, part),
        Long::Whole(clocks) | Long::Unopened(clocks) => {
            let mut course = answered(rng, part, Answer::Done);
            let more = clocks - course.samples.len();
            push_idle(rng, &mut course.samples, more, true);
            let call = match long {
                Long::Unopened(_) => Call::Feed,
                _ => Call::Transact,
            };
            let Course {
                record, samples, ..
            } = course;
            vec![whole_probe(rng, call, part, record, samples)]
        }
    }
}

/// One of a list for each part.
pub type OfPart<T> = (&'static Part, T);

/// The lists of all parts in one.
pub fn of_all_parts<T: Copy>(list: impl Fn(&Part) -> Vec<T>) -> Rounds<OfPart<T>> {
    let of_one = |part: &'static Part| list(part).into_iter().map(move |one| (part, one));
    Rounds::new(PARTS.into_iter().flat_map(of_one).collect())
}

/// The answers that a part can give to a transaction which no check refuses.
pub fn answers_of(part: &Part) -> Vec<Answer> {
    let mut list = ON_TRANSACTION.to_vec();
    list.retain(|&answer| answer.class() != Class::Refused && can_answer(part, answer));
    list
}

/// The kinds of probes. Each but the last has a list that is worked off.
#[derive(Clone, Copy)]
enum Kind {
    Heavy,
    Long,
    Sequences,
    Pairs,
    Latched,
    Edges,
    Limits,
    Answers,
    Single,
    Double,
    Brink,
    Standing,
    Damaged,
    Largest,
    Births,
    OverImage,
    Any,
}

impl Kind {
    /// How many of four are over an image instead of its record. What shows the checks
    /// of a record, or needs a large memory, never is.
    fn over_images_of_four(self) -> usize {
        match self {
            Kind::Pairs | Kind::Latched | Kind::Edges | Kind::Answers | Kind::Standing => 1,
            Kind::Any => 2,
            _ => 0,
        }
    }
}

/// What sequences go over: about a quarter of the calls over images.
const MIXES: [Mix; 8] = [
    Mix::All(Over::Record),
    Mix::All(Over::Record),
    Mix::All(Over::Record),
    Mix::All(Over::Record),
    Mix::All(Over::Record),
    Mix::All(Over::Image),
    Mix::All(Over::Image),
    Mix::Both,
];

/// A call over an image.
#[derive(Clone, Copy)]
enum OverImage {
    Good,
    /// No valid record has the image.
    Flawed,
    Faulty(Fault),
}

impl OverImage {
    fn list() -> Vec<(Call, OverImage)> {
        let both = |call: Call| [(call, OverImage::Good), (call, OverImage::Flawed)];
        let mut list: Vec<(Call, OverImage)> = CALLS.into_iter().flat_map(both).collect();
        let faulty = |(call, fault): (Call, Fault)| (call, OverImage::Faulty(fault));
        list.extend(all_faults().into_iter().map(faulty));
        list
    }

    fn probe(self, rng: &mut Rng, call: Call) -> Probe {
        let part = rng.pick(&PARTS);
        match self {
            OverImage::Good => good_probe(rng, part, call, call.wants_open()).over_image(),
            OverImage::Flawed => {
                let mut list = Flaw::list(rng);
                list.retain(|&(_, _, other)| other == call);
                let (part, flaw, call) = rng.pick(&list);
                flaw.probe(rng, part, call)
            }
            OverImage::Faulty(fault) => faulty_probe(rng, part, call, fault),
        }
    }
}

/// In so many probes every list has its first round.
const ROUND_PROBES: usize = 2000;
/// As many of them are left to sequences, those of the most clocks aside.
const SEQUENCE_PROBES: usize = 800;

/// Makes probes one after the other. It keeps lists of what has to come and works
/// them off, so that nothing is left to chance.
struct Spoiler {
    rng: Rng,
    shares: Shares<Kind>,
    made: usize,
    /// The rest of a sequence.
    waiting: VecDeque<Probe>,
    heavy: Rounds<OfPart<Limit>>,
    long: Rounds<OfPart<Long>>,
    sequencer: Sequencer,
    mixes: Rounds<Mix>,
    pairs: Vec<Pair>,
    latched: Rounds<OfPart<Goal>>,
    edges: Rounds<OfPart<Edge>>,
    limits: Rounds<OfPart<Limit>>,
    answers: Rounds<OfPart<Answer>>,
    single: Rounds<OfPart<Wanted>>,
    double: Rounds<Wanted>,
    brink: Rounds<OfPart<Brink>>,
    standing: Rounds<OfPart<(Phase, Call)>>,
    damaged: Rounds<OfPart<Damage>>,
    largest: Rounds<OfPart<(Phase, u8)>>,
    births: Rounds<OfPart<Birth>>,
    over_image: Rounds<(Call, OverImage)>,
}

impl Spoiler {
    fn new(seed: u64) -> Spoiler {
        let limits = |heavy: bool| {
            move |part: &Part| -> Vec<Limit> {
                let mut list = Limit::list(part);
                list.retain(|limit| limit.is_heavy() == heavy);
                list
            }
        };
        let long = |part: &Part| {
            let mut list = vec![
                Long::Chunks,
                Long::Unopened(MOST_CLOCKS),
                Long::Unopened(MOST_CLOCKS + 1),
            ];
            if *part == M {
                list.extend([Long::Whole(MOST_CLOCKS), Long::Whole(MOST_CLOCKS + 1)]);
            }
            list
        };
        let standing = |part: &Part| -> Vec<(Phase, Call)> {
            let both = |phase: Phase| [(phase, Call::Feed), (phase, Call::Close)];
            Phase::list(part).into_iter().flat_map(both).collect()
        };
        let mut rng = Rng::new(seed);
        let pairs = all_pairs(&mut rng);
        let mut spoiler = Spoiler {
            rng,
            shares: Shares::default(),
            made: 0,
            waiting: VecDeque::new(),
            heavy: of_all_parts(limits(true)),
            long: of_all_parts(long),
            sequencer: Sequencer::new(answers_of, Over::Record),
            mixes: Rounds::new(MIXES.to_vec()),
            pairs,
            latched: of_all_parts(Goal::list),
            edges: of_all_parts(Edge::on_probes),
            limits: of_all_parts(limits(false)),
            answers: of_all_parts(answers_of),
            single: of_all_parts(|_| Wanted::single()),
            double: Rounds::new(Wanted::double()),
            brink: of_all_parts(|_| BRINKS.to_vec()),
            standing: of_all_parts(standing),
            damaged: of_all_parts(Damage::list),
            largest: of_all_parts(largest_list),
            births: of_all_parts(Birth::list),
            over_image: Rounds::new(OverImage::list()),
        };
        spoiler.shares = spoiler.all_shares();
        spoiler
    }

    fn all_shares(&self) -> Shares<Kind> {
        let lists = [
            (Kind::Heavy, self.heavy.round()),
            // One of each part is a sequence, of 16 probes at most.
            (Kind::Long, self.long.round() + 15 * PARTS.len()),
            (Kind::Sequences, SEQUENCE_PROBES),
            (Kind::Pairs, self.pairs.len()),
            (Kind::Latched, self.latched.round()),
            (Kind::Edges, self.edges.round()),
            (Kind::Limits, self.limits.round()),
            (Kind::Answers, self.answers.round()),
            (Kind::Single, self.single.round()),
            (Kind::Double, self.double.round()),
            (Kind::Brink, self.brink.round()),
            (Kind::Standing, self.standing.round()),
            (Kind::Damaged, self.damaged.round()),
            (Kind::Largest, self.largest.round()),
            (Kind::Births, self.births.round()),
            (Kind::OverImage, self.over_image.round()),
        ];
        Shares::new(ROUND_PROBES, &lists, Kind::Any)
    }

    /// The next probe: the rest of a sequence, or one of the kind that is furthest
    /// behind its share.
    fn next(&mut self) -> Probe {
        self.made += 1;
        loop {
            if let Some(probe) = self.waiting.pop_front() {
                return probe;
            }
            let (at, kind) = self.shares.furthest_behind(self.made);
            let probes = self.of_kind(kind);
            self.shares.made(at, probes.len().max(1));
            self.waiting.extend(probes);
        }
    }

    fn of_kind(&mut self, kind: Kind) -> Vec<Probe> {
        let rng = &mut self.rng;
        match kind {
            Kind::Long => match self.long.take(rng) {
                Some((part, long)) => long_probes(rng, part, long),
                None => Vec::new(),
            },
            Kind::Sequences => match self.mixes.take(rng) {
                Some(mix) => self.sequencer.next(rng, mix),
                None => Vec::new(),
            },
            _ => {
                let probe = self.one_of_kind(kind);
                let over_image = self.rng.chance(kind.over_images_of_four(), 4);
                let turn = |probe: Probe| {
                    if over_image {
                        probe.over_image()
                    } else {
                        probe
                    }
                };
                probe.map(turn).into_iter().collect()
            }
        }
    }

    fn one_of_kind(&mut self, kind: Kind) -> Option<Probe> {
        let rng = &mut self.rng;
        Some(match kind {
            Kind::Heavy => {
                let (part, limit) = self.heavy.take(rng)?;
                limit_probe(rng, part, limit)
            }
            Kind::Pairs => {
                if self.pairs.is_empty() {
                    self.pairs = all_pairs(rng);
                }
                sound_probe(rng, self.pairs.pop()?)
            }
            Kind::Latched => {
                let (part, goal) = self.latched.take(rng)?;
                let write = goal.draw(rng);
                latched_probe(rng, part, write)
            }
            Kind::Edges => {
                let (part, edge) = self.edges.take(rng)?;
                edge_probe(rng, part, edge)
            }
            Kind::Limits => {
                let (part, limit) = self.limits.take(rng)?;
                limit_probe(rng, part, limit)
            }
            Kind::Answers => {
                let (part, answer) = self.answers.take(rng)?;
                answered_probe(rng, part, answer)
            }
            Kind::Single => {
                let (part, wanted) = self.single.take(rng)?;
                wanted.probe(rng, part)
            }
            Kind::Double => {
                let wanted = self.double.take(rng)?;
                let part = rng.pick(&PARTS);
                wanted.probe(rng, part)
            }
            Kind::Brink => {
                let (part, brink) = self.brink.take(rng)?;
                brink.probe(rng, part)
            }
            Kind::Standing => {
                let (part, (phase, call)) = self.standing.take(rng)?;
                standing_probe(rng, part, phase, call)
            }
            Kind::Damaged => {
                let (part, damage) = self.damaged.take(rng)?;
                damaged_probe(rng, part, damage)
            }
            Kind::Largest => {
                let (part, (phase, wires)) = self.largest.take(rng)?;
                largest_probe(rng, part, phase, wires)
            }
            Kind::Births => {
                let (part, birth) = self.births.take(rng)?;
                birth.probe(rng, part)
            }
            Kind::OverImage => {
                let (call, over_image) = self.over_image.take(rng)?;
                over_image.probe(rng, call)
            }
            Kind::Long | Kind::Sequences | Kind::Any => any_probe(rng),
        })
    }
}

/// A list of probes.
pub fn probe_list(seed: u64, count: usize) -> Vec<Probe> {
    let mut spoiler = Spoiler::new(seed);
    (0..count).map(|_| spoiler.next()).collect()
}

/// A probe file.
pub fn probes(seed: u64, count: usize) -> Vec<u8> {
    let mut spoiler = Spoiler::new(seed);
    let mut file = Vec::new();
    for _ in 0..count {
        file.extend(spoiler.next().to_bytes());
    }
    file
}
