//! Seeded calls over images, and fresh chips into them: valid images in all states,
//! images that no valid record has, and calls that are refused for something else;
//! most are off lists of what has to come.

use std::collections::VecDeque;

use crate::answer::Answer::{self, State};
use crate::compose::{compose, Plan};
use crate::courses::answered;
use crate::flaws::{good_probe, Field, Flaw, Flawed, LENGTHS};
use crate::image::{image_of, place, spare_places, FLAGS, IMAGE_BYTES};
use crate::parts::{find, Part, PARTS};
use crate::probe::{Call, Over, Probe, CALLS, MOST_IMAGE_BYTES};
use crate::records::{ready_record, valid_record};
use crate::refusals::{Brink, Fault, Wanted};
use crate::rng::Rng;
use crate::rounds::{Rounds, Shares};
use crate::sequences::{fresh_into, life, Mix, Sequencer};
use crate::spoil::{answers_of, any_probe, of_all_parts, whole_probe, OfPart};
use crate::spots::Phase;
use crate::standing::standing_probe;

/// The largest n of a memory that is lent here.
const MOST_N: u8 = 16;

/// Why an image is refused that a call is refused for otherwise as well.
#[derive(Clone, Copy, PartialEq, Eq, PartialOrd, Ord, Debug)]
pub enum Cause {
    /// Its length, a flag or a spare byte.
    Form,
    /// Its record.
    Record,
}

pub const CAUSES: [Cause; 2] = [Cause::Form, Cause::Record];

impl Cause {
    /// Which of the two a flaw is.
    pub fn of(flaw: Flaw) -> Cause {
        match flaw {
            Flaw::Length(_) | Flaw::Longer | Flaw::Flag(..) | Flaw::Spare(_) => Cause::Form,
            Flaw::Part(_)
            | Flaw::Below
            | Flaw::Above
            | Flaw::Far
            | Flaw::Field(..)
            | Flaw::Fact(_) => Cause::Record,
        }
    }

    /// Spoils an image so that the call keeps its other fault.
    fn spoil(self, rng: &mut Rng, part: &Part, image: &mut Vec<u8>) {
        let flag = rng.pick(&FLAGS[..4]);
        let byte = rng.pick(&[2, 255]);
        let spare = rng.pick(&spare_places());
        let flaw = match self {
            Cause::Form => {
                let short = Flaw::Length(IMAGE_BYTES - 1);
                let long = Flaw::Length(IMAGE_BYTES + 1);
                rng.pick(&[
                    Flaw::Flag(flag, byte),
                    Flaw::Spare(spare),
                    short,
                    long,
                    Flaw::Longer,
                ])
            }
            Cause::Record if rng.chance(1, 3) => {
                // No open transaction has such a number, and none at all without one.
                image[place::NUMBER + 3] |= 1 << rng.below(8);
                return;
            }
            Cause::Record => any_field(rng, part),
        };
        flaw.spoil(rng, part, image);
    }
}

/// Some register of this part in some way.
fn any_field(rng: &mut Rng, part: &Part) -> Flaw {
    let field = rng.pick(&Field::list(part));
    Flaw::Field(field, rng.pick(&field.ways(part)))
}

/// A call that has this fault and no other.
pub fn faulty_probe(rng: &mut Rng, part: &'static Part, call: Call, fault: Fault) -> Probe {
    if fault == Fault::Clocks && call == Call::Feed {
        let fed = rng.pick(&[1, 1, 2, 300]);
        let brink = Brink {
            is_open: true,
            stated: 65_536 - fed as u32,
            fed,
        };
        return brink.probe(rng, part).over_image();
    }
    let is_open = call.wants_open() != (fault == Fault::Turn);
    let mut probe = good_probe(rng, part, call, is_open).over_image();
    let with_sample = |probe: &mut Probe| {
        if probe.samples.is_empty() {
            probe.samples.push(0);
            probe.output_bytes += 1;
        }
    };
    match fault {
        Fault::Memory => {
            let whole = probe.memory_bytes;
            probe.memory_bytes = rng.pick(&[whole - 1, whole + 1, whole / 2, whole * 2, 0]);
        }
        Fault::Area => {
            let whole = probe.area_bytes;
            let sizes = [whole + 1, whole.saturating_sub(1), 0, 256, 512];
            let sizes: Vec<usize> = sizes.into_iter().filter(|&size| size != whole).collect();
            probe.area_bytes = rng.pick(&sizes);
        }
        Fault::Output => {
            with_sample(&mut probe);
            let clocks = probe.samples.len();
            probe.output_bytes = rng.pick(&[clocks - 1, clocks - 1, 0]);
        }
        Fault::Clocks => {
            let samples = rng.bytes(65_536);
            probe.samples = samples.iter().map(|byte| byte & 0x0F).collect();
            probe.output_bytes = probe.samples.len();
        }
        Fault::Sample => {
            with_sample(&mut probe);
            let at = rng.below(probe.samples.len());
            probe.samples[at] = rng.pick(&[16, 17, 32, 128, 255]);
        }
        Fault::Turn => {}
    }
    probe
}

/// What a fresh chip is asked for with.
#[derive(Clone, Copy, PartialEq, Eq, PartialOrd, Ord, Debug)]
pub enum Birth {
    /// Everything as it should be, with the least n, the most or another.
    Least,
    Most,
    Middle,
    /// An image that is no image of a record before.
    OverNoise,
    /// One n too small, or one too large.
    Below,
    Above,
    /// Bytes of the identity more or less than there should be.
    Identity(i8),
    /// The same of the unique number. Where there is none it is no fault.
    Unique(i8),
    /// So many bytes of the image.
    Length(usize),
    Longer,
    /// The same beside something that is refused by 1.
    LengthAndN,
    LengthAndIdentity,
}

impl Birth {
    pub fn list(part: &Part) -> Vec<Birth> {
        let mut list = vec![
            Birth::Least,
            Birth::Most,
            Birth::Middle,
            Birth::OverNoise,
            Birth::Below,
            Birth::Above,
            Birth::Identity(-1),
            Birth::Identity(1),
            Birth::Unique(-1),
            Birth::Unique(1),
            Birth::Longer,
            Birth::LengthAndN,
            Birth::LengthAndIdentity,
        ];
        // As long as that of a part of another family.
        list.push(Birth::Identity(12 - 2 * part.identity_bytes as i8));
        if part.unique_bytes == 0 {
            // There is nothing to have less of.
            list.retain(|&birth| birth != Birth::Unique(-1));
            list.push(Birth::Unique(8));
        } else {
            list.push(Birth::Unique(-8));
        }
        list.extend(LENGTHS.map(Birth::Length));
        list
    }

    pub fn word(self) -> String {
        match self {
            Birth::Least => String::from("least n"),
            Birth::Most => String::from("most n"),
            Birth::Middle => String::from("another n"),
            Birth::OverNoise => String::from("over noise"),
            Birth::Below => String::from("n too small"),
            Birth::Above => String::from("n too large"),
            Birth::Identity(more) => format!("identity {more:+}"),
            Birth::Unique(more) => format!("unique {more:+}"),
            Birth::Length(bytes) => format!("{bytes} bytes"),
            Birth::Longer => String::from("more bytes"),
            Birth::LengthAndN => String::from("bytes and n"),
            Birth::LengthAndIdentity => String::from("bytes and identity"),
        }
    }

    pub fn probe(self, rng: &mut Rng, part: &'static Part) -> Probe {
        let mut probe = held(rng);
        let middle =
            part.least_n + 1 + rng.below(usize::from(part.most_n - part.least_n) - 1) as u8;
        let some_n = rng.pick(&[part.least_n, middle, part.most_n]);
        let n = match self {
            Birth::Least => part.least_n,
            Birth::Most => part.most_n,
            Birth::Middle => middle,
            Birth::Below => part.least_n - 1,
            Birth::Above => part.most_n + 1,
            Birth::LengthAndN => rng.pick(&[part.least_n - 1, part.most_n + 1, 0, 255]),
            _ => some_n,
        };
        match self {
            Birth::OverNoise => probe.image = rng.bytes(IMAGE_BYTES),
            Birth::Length(bytes) => probe.image.resize(bytes, 0),
            Birth::Longer => {
                let bytes = rng.pick(&[130, 192, MOST_IMAGE_BYTES]);
                probe.image.resize(bytes, 0);
            }
            Birth::LengthAndN | Birth::LengthAndIdentity => {
                let bytes = rng.pick(&LENGTHS);
                probe.image.resize(bytes, 0);
            }
            _ => {}
        }
        let mut probe = fresh_into(rng, probe, part, n);
        let more = |bytes: usize, more: i8| bytes.saturating_add_signed(isize::from(more));
        match self {
            Birth::Identity(by) => probe.identity_bytes = more(part.identity_bytes, by),
            Birth::Unique(by) => probe.unique_bytes = more(part.unique_bytes, by),
            Birth::LengthAndIdentity => {
                probe.identity_bytes =
                    rng.pick(&[0, part.identity_bytes - 1, 12 - part.identity_bytes]);
            }
            _ => {}
        }
        // Now and then there are samples behind the two numbers.
        let behind = rng.pick(&[0, 0, 0, 3]);
        probe.samples = rng.bytes(probe.identity_bytes + probe.unique_bytes + behind);
        probe
    }
}

/// A call of no matter on an image that holds something: that of some valid record,
/// often of another part and with one open.
fn held(rng: &mut Rng) -> Probe {
    let part = rng.pick(&PARTS);
    let call = rng.pick(&CALLS);
    let is_open = rng.chance(1, 3);
    let mut probe = good_probe(rng, part, call, is_open);
    if rng.chance(1, 4) {
        let record = valid_record(rng, part);
        probe.image = image_of(&record);
    }
    probe.memory_bytes = rng.pick(&[0, 5, 1024]);
    probe.area_bytes = rng.pick(&[0, 3, 256]);
    probe.output_bytes = rng.pick(&[0, 9]);
    probe
}

/// All n that a valid image is asked for with: those of a memory that is lent, and the
/// largest.
pub fn sizes(part: &Part) -> Vec<u8> {
    (part.least_n..=MOST_N).chain([part.most_n]).collect()
}

/// A call over a valid image of this n. Of a memory that is too large for it too little
/// is lent.
fn sized_probe(rng: &mut Rng, part: &'static Part, n: u8) -> Probe {
    let mut record = ready_record(rng, part);
    record.n = n;
    let call = rng.pick(&[Call::Transact, Call::Transact, Call::PowerCycle, Call::Open]);
    let samples = if call.takes_samples() {
        let opcode = rng.pick(&part.opcodes());
        compose(rng, part, &record, opcode, &[], &Plan::sound())
    } else {
        Vec::new()
    };
    let mut probe = whole_probe(rng, call, part, record, samples).over_image();
    if n > MOST_N {
        probe.memory_bytes = rng.pick(&[0, 1024, 1 << MOST_N]);
    }
    probe
}

/// Keeps the memory that a probe lends small, and mostly right for its n.
fn tame(mut probe: Probe) -> Probe {
    let most = 1 << MOST_N;
    if probe.memory_bytes > most {
        probe.memory_bytes = most;
        probe.edit(|record| {
            let offered = find(record.part).is_some_and(|part| part.allows_n(record.n));
            if offered && !record.open.flag {
                record.n = MOST_N;
            }
        });
    }
    probe
}

/// The kinds of calls. Each but the last has a list that is worked off.
#[derive(Clone, Copy)]
enum Kind {
    Flawed,
    Faulty,
    Doubly,
    Ordered,
    Answers,
    Standing,
    Sizes,
    Births,
    Lives,
    Sequences,
    Any,
}

/// In so many calls every list has its first round.
const ROUND_CALLS: usize = 1000;
/// As many of them are left to sequences.
const SEQUENCE_CALLS: usize = 220;

/// Makes calls over images one after the other. It keeps lists of what has to come
/// and works them off, so that nothing is left to chance.
struct Imager {
    shares: Shares<Kind>,
    flawed: Rounds<Flawed>,
    faulty: Rounds<OfPart<(Call, Fault)>>,
    doubly: Rounds<(Call, Fault, Cause)>,
    ordered: Rounds<Wanted>,
    answers: Rounds<OfPart<(Call, Answer)>>,
    standing: Rounds<OfPart<(Phase, Call)>>,
    sizes: Rounds<OfPart<u8>>,
    births: Rounds<OfPart<Birth>>,
    lives: Rounds<&'static Part>,
    sequencer: Sequencer,
}

/// Each fault of each call.
pub fn all_faults() -> Vec<(Call, Fault)> {
    let of_call = |call: Call| {
        Fault::list(call)
            .into_iter()
            .map(move |fault| (call, fault))
    };
    CALLS.into_iter().flat_map(of_call).collect()
}

impl Imager {
    fn new(rng: &mut Rng) -> Imager {
        let standing = |part: &Part| -> Vec<(Phase, Call)> {
            let both = |phase: Phase| [(phase, Call::Feed), (phase, Call::Close)];
            Phase::list(part).into_iter().flat_map(both).collect()
        };
        let answers = |part: &Part| -> Vec<(Call, Answer)> {
            let both = |answer: Answer| [(Call::Transact, answer), (Call::Close, answer)];
            answers_of(part).into_iter().flat_map(both).collect()
        };
        let doubly = all_faults()
            .into_iter()
            .flat_map(|(call, fault)| CAUSES.map(|cause| (call, fault, cause)));
        let mut ordered = Wanted::double();
        ordered.retain(|wanted| !wanted.has(State));
        let mut imager = Imager {
            shares: Shares::default(),
            flawed: Rounds::new(Flaw::list(rng)),
            faulty: of_all_parts(|_| all_faults()),
            doubly: Rounds::new(doubly.collect()),
            ordered: Rounds::new(ordered),
            answers: of_all_parts(answers),
            standing: of_all_parts(standing),
            sizes: of_all_parts(sizes),
            births: of_all_parts(Birth::list),
            lives: Rounds::new(PARTS.to_vec()),
            // The answers to a close come in single calls.
            sequencer: Sequencer::new(|_| Vec::new(), Over::Image),
        };
        let lists = [
            (Kind::Flawed, imager.flawed.round()),
            (Kind::Faulty, imager.faulty.round()),
            (Kind::Doubly, imager.doubly.round()),
            (Kind::Ordered, imager.ordered.round()),
            (Kind::Answers, imager.answers.round()),
            (Kind::Standing, imager.standing.round()),
            (Kind::Sizes, imager.sizes.round()),
            (Kind::Births, imager.births.round()),
            // Each is a sequence of at most 15.
            (Kind::Lives, 15 * imager.lives.round()),
            (Kind::Sequences, SEQUENCE_CALLS),
        ];
        imager.shares = Shares::new(ROUND_CALLS, &lists, Kind::Any);
        imager
    }

    /// The next call or sequence, when so many calls are due.
    fn next(&mut self, rng: &mut Rng, due: usize) -> Vec<Probe> {
        let (at, kind) = self.shares.furthest_behind(due);
        let probes = match kind {
            Kind::Lives => self.life(rng).unwrap_or_default(),
            Kind::Sequences => self.sequencer.next(rng, Mix::All(Over::Image)),
            _ => self.one_of_kind(rng, kind).into_iter().collect(),
        };
        self.shares.made(at, probes.len().max(1));
        probes.into_iter().map(tame).collect()
    }

    fn life(&mut self, rng: &mut Rng) -> Option<Vec<Probe>> {
        let part = self.lives.take(rng)?;
        let other = rng.pick(&PARTS);
        let call = rng.pick(&CALLS);
        let mut flawed = good_probe(rng, other, call, call.wants_open()).over_image();
        let flaw = match rng.below(3) {
            0 => Flaw::Spare(rng.pick(&spare_places())),
            1 => Flaw::Flag(rng.pick(&FLAGS), 2),
            _ => any_field(rng, other),
        };
        flaw.spoil(rng, other, &mut flawed.image);
        Some(life(rng, part, flawed))
    }

    fn one_of_kind(&mut self, rng: &mut Rng, kind: Kind) -> Option<Probe> {
        Some(match kind {
            Kind::Flawed => {
                let (part, flaw, call) = self.flawed.take(rng)?;
                flaw.probe(rng, part, call)
            }
            Kind::Faulty => {
                let (part, (call, fault)) = self.faulty.take(rng)?;
                faulty_probe(rng, part, call, fault)
            }
            Kind::Doubly => {
                let (call, fault, cause) = self.doubly.take(rng)?;
                let part = rng.pick(&PARTS);
                let mut probe = faulty_probe(rng, part, call, fault);
                cause.spoil(rng, part, &mut probe.image);
                probe
            }
            Kind::Ordered => {
                let wanted = self.ordered.take(rng)?;
                let part = rng.pick(&PARTS);
                wanted.probe(rng, part).over_image()
            }
            Kind::Answers => {
                let (part, (call, answer)) = self.answers.take(rng)?;
                let course = answered(rng, part, answer);
                let (record, samples) = match call {
                    Call::Close => (course.standing(course.samples.len()), Vec::new()),
                    _ => (course.record, course.samples),
                };
                whole_probe(rng, call, part, record, samples).over_image()
            }
            Kind::Standing => {
                let (part, (phase, call)) = self.standing.take(rng)?;
                standing_probe(rng, part, phase, call).over_image()
            }
            Kind::Sizes => {
                let (part, n) = self.sizes.take(rng)?;
                sized_probe(rng, part, n)
            }
            Kind::Births => {
                let (part, birth) = self.births.take(rng)?;
                birth.probe(rng, part)
            }
            Kind::Lives | Kind::Sequences | Kind::Any => any_probe(rng).over_image(),
        })
    }
}

/// Calls over images, one after the other.
struct Calls {
    rng: Rng,
    imager: Imager,
    made: usize,
    /// The rest of a sequence.
    waiting: VecDeque<Probe>,
}

impl Calls {
    fn new(seed: u64) -> Calls {
        let mut rng = Rng::new(seed);
        Calls {
            imager: Imager::new(&mut rng),
            rng,
            made: 0,
            waiting: VecDeque::new(),
        }
    }

    fn next(&mut self) -> Probe {
        self.made += 1;
        loop {
            if let Some(probe) = self.waiting.pop_front() {
                return probe;
            }
            let probes = self.imager.next(&mut self.rng, self.made);
            self.waiting.extend(probes);
        }
    }
}

/// A list of calls over images.
pub fn image_list(seed: u64, count: usize) -> Vec<Probe> {
    let mut calls = Calls::new(seed);
    (0..count).map(|_| calls.next()).collect()
}

/// A file of them.
pub fn images(seed: u64, count: usize) -> Vec<u8> {
    let mut calls = Calls::new(seed);
    let mut file = Vec::new();
    for _ in 0..count {
        file.extend(calls.next().to_bytes());
    }
    file
}
