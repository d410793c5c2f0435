//! Every refusal that a call has coming, not the first one alone: it shows which
//! calls have several faults, so that the order of the checks is seen. Here are also
//! the probes that are to have certain refusals.

use crate::answer::Answer::{self, Sample, Size, State, Turn};
use crate::compose::{compose, Plan};
use crate::device::{state_fits, Record, MOST_CLOCKS};
use crate::facts::Open;
use crate::image::{spelled, valid, IMAGE_BYTES};
use crate::parts::{find, Part};
use crate::probe::{Call, Over, Probe, CALLS};
use crate::records::{ready_record, spoil_record};
use crate::rng::Rng;
use crate::spoil::whole_probe;
use crate::spots::{Phase, Why};
use crate::standing::{any_standing, standing_probe};

/// The refusals that a call can have, in the order of checking.
pub fn checks(over: Over, call: Call) -> &'static [Answer] {
    match (over, call.takes_samples()) {
        (Over::Record, true) => &[Size, Sample, State, Turn],
        (Over::Record, false) => &[Size, State, Turn],
        (Over::Image, true) => &[State, Size, Sample, Turn],
        (Over::Image, false) => &[State, Size, Turn],
    }
}

/// Pairs of refusals of a call that can hold at once, the earlier one first.
pub fn pairs(over: Over, call: Call) -> Vec<(Answer, Answer)> {
    let checks = checks(over, call);
    let mut list = Vec::new();
    for (at, &earlier) in checks.iter().enumerate() {
        list.extend(checks[at + 1..].iter().map(|&later| (earlier, later)));
    }
    list
}

/// The record of an image of any length, as if it were cut or filled with zeros to
/// the right one: it tells what else is at fault with a call over it.
pub fn loosely_spelled(image: &[u8]) -> Option<Record> {
    let mut image = image.to_vec();
    image.resize(IMAGE_BYTES, 0);
    spelled(&image)
}

/// One thing for which a call can be refused by 1, 2 or 13.
#[derive(Clone, Copy, PartialEq, Eq, PartialOrd, Ord, Debug)]
pub enum Fault {
    Memory,
    Area,
    Output,
    Clocks,
    Sample,
    Turn,
}

impl Fault {
    /// All that a call can have.
    pub fn list(call: Call) -> Vec<Fault> {
        let mut list = vec![Fault::Memory, Fault::Area];
        if call.takes_samples() {
            list.extend([Fault::Output, Fault::Clocks, Fault::Sample]);
        }
        list.push(Fault::Turn);
        list
    }

    pub fn answer(self) -> Answer {
        match self {
            Fault::Memory | Fault::Area | Fault::Output | Fault::Clocks => Size,
            Fault::Sample => Sample,
            Fault::Turn => Turn,
        }
    }

    pub fn word(self) -> String {
        format!("{} ({self:?})", self.answer()).to_lowercase()
    }

    /// Whether a call on this record has it. Memory and area are at fault only where
    /// the part is one and offers the n.
    fn holds(self, call: Call, probe: &Probe, record: &Record) -> bool {
        let part = find(record.part).filter(|part| part.allows_n(record.n));
        let stated_clocks = if call == Call::Feed && record.open.flag {
            u64::from(record.open.clocks)
        } else {
            0
        };
        let chunk = probe.samples.len();
        match self {
            Fault::Memory => part.is_some() && probe.memory_bytes != 1 << record.n,
            Fault::Area => part.is_some_and(|part| probe.area_bytes != part.area_bytes),
            Fault::Output => chunk > probe.output_bytes,
            Fault::Clocks => stated_clocks + chunk as u64 > MOST_CLOCKS as u64,
            Fault::Sample => probe.samples.iter().any(|&sample| sample > 15),
            Fault::Turn => record.open.flag != call.wants_open(),
        }
    }

    /// All that hold for a call on this record.
    pub fn all(call: Call, probe: &Probe, record: &Record) -> Vec<Fault> {
        let mut list = Fault::list(call);
        list.retain(|fault| fault.holds(call, probe, record));
        list
    }
}

/// Every refusal that holds for a call over this image or its record, in the order of
/// checking.
pub fn refusals(over: Over, call: Call, probe: &Probe, image: &[u8]) -> Vec<Answer> {
    let Some(record) = loosely_spelled(image) else {
        return Vec::new();
    };
    let faults = Fault::all(call, probe, &record);
    let offered = find(record.part).filter(|part| part.allows_n(record.n));
    let holds = |&refusal: &Answer| match (refusal, over) {
        // Of an image without a part, or with another n, 3 says so.
        (Size, Over::Record) if offered.is_none() => true,
        (State, Over::Image) => valid(image).is_none(),
        // A record of no part, or with another n, has no state to look at.
        (State, Over::Record) => offered.is_some_and(|part| !state_fits(part, &record)),
        _ => faults.iter().any(|fault| fault.answer() == refusal),
    };
    let mut list = checks(over, call).to_vec();
    list.retain(holds);
    list
}

/// A call and what it is to be refused for; nothing where it is good.
#[derive(Clone, Copy, PartialEq, Eq, Debug)]
pub struct Wanted {
    call: Call,
    first: Option<Answer>,
    second: Option<Answer>,
}

impl Wanted {
    /// Each call good and with each refusal alone.
    pub fn single() -> Vec<Wanted> {
        let mut list = Vec::new();
        for call in CALLS {
            let all = [None]
                .into_iter()
                .chain(checks(Over::Record, call).iter().map(Some));
            list.extend(all.map(|first| Wanted {
                call,
                first: first.copied(),
                second: None,
            }));
        }
        list
    }

    /// Each call with each two refusals that can hold at once.
    pub fn double() -> Vec<Wanted> {
        let mut list = Vec::new();
        for call in CALLS {
            let pairs = pairs(Over::Record, call);
            list.extend(pairs.into_iter().map(|(first, second)| Wanted {
                call,
                first: Some(first),
                second: Some(second),
            }));
        }
        list
    }

    pub fn has(&self, refusal: Answer) -> bool {
        [self.first, self.second].contains(&Some(refusal))
    }

    /// A probe with these refusals and no others.
    pub fn probe(&self, rng: &mut Rng, part: &'static Part) -> Probe {
        let call = self.call;
        let is_open = call.wants_open() != self.has(Turn);
        let mut probe = if is_open {
            any_standing(rng, part, call)
        } else {
            let mut record = ready_record(rng, part);
            record.n = part.least_n + rng.below(3) as u8;
            let opcode = rng.pick(&part.opcodes());
            let samples = if call.takes_samples() {
                compose(rng, part, &record, opcode, &[], &Plan::sound())
            } else {
                Vec::new()
            };
            whole_probe(rng, call, part, record, samples)
        };
        if self.has(State) {
            if rng.chance(1, 2) {
                // No open transaction has such a number, and none at all without one.
                let bit = 24 + rng.below(8);
                probe.edit(|record| record.open.number |= 1 << bit);
            } else {
                probe.edit(|record| spoil_record(rng, record));
            }
        }
        if self.has(Sample) {
            if probe.samples.is_empty() {
                probe.samples.push(0);
                probe.output_bytes += 1;
            }
            let at = rng.below(probe.samples.len());
            probe.samples[at] = rng.pick(&[16, 17, 32, 128, 255]);
        }
        if self.has(Size) {
            let chunk = probe.samples.len();
            match rng.below(6) {
                0 => probe.memory_bytes -= 1,
                1 => probe.memory_bytes += 1,
                2 => probe.memory_bytes /= 2,
                3 if probe.area_bytes > 0 => probe.area_bytes -= 1,
                4 | 5 if chunk > 0 => probe.output_bytes = chunk - 1,
                _ => probe.area_bytes += 1,
            }
        }
        probe
    }
}

/// A feed about the most clocks that there may be.
#[derive(Clone, Copy, PartialEq, Eq, Debug)]
pub struct Brink {
    /// With none open the clocks stated are not counted, and refused only by 3.
    pub is_open: bool,
    /// Clocks that the record states.
    pub stated: u32,
    /// Clocks of the chunk.
    pub fed: usize,
}

impl Brink {
    const fn new(is_open: bool, stated: u32, fed: usize) -> Brink {
        Brink {
            is_open,
            stated,
            fed,
        }
    }

    pub fn word(&self) -> String {
        let is_open = if self.is_open { "open" } else { "none open" };
        format!("{is_open} {} and {}", self.stated, self.fed)
    }

    /// The answer to it where nothing else is at fault.
    pub fn answer(&self) -> Answer {
        let clocks = u64::from(self.stated) + self.fed as u64;
        match self.is_open {
            false => State,
            true if clocks > MOST_CLOCKS as u64 => Size,
            true => Answer::Done,
        }
    }

    pub fn probe(&self, rng: &mut Rng, part: &'static Part) -> Probe {
        // As many clocks as one likes can have come in these.
        let phase = rng.pick(&[
            Phase::Memory,
            Phase::Read,
            Phase::Rest(Why::Unknown),
            Phase::Rest(Why::PastCommand),
        ]);
        let mut probe = standing_probe(rng, part, phase, Call::Feed);
        probe.edit(|record| {
            let open = &mut record.open;
            if !self.is_open {
                *open = Open::default();
            }
            open.clocks = self.stated;
            open.number = 0;
        });
        let samples = rng.bytes(self.fed);
        probe.samples = samples.iter().map(|byte| byte & 0x0F).collect();
        probe.output_bytes = self.fed + rng.below(3);
        probe
    }
}

/// The sum is one too many or just enough, and must not be taken round past 32 bits.
pub const BRINKS: [Brink; 10] = [
    Brink::new(true, 65_535, 0),
    Brink::new(true, 65_535, 1),
    Brink::new(true, 65_534, 1),
    Brink::new(true, 65_530, 6),
    Brink::new(true, 65_536, 0),
    Brink::new(true, 65_536, 1),
    Brink::new(true, u32::MAX, 0),
    Brink::new(true, u32::MAX, 1),
    Brink::new(false, 65_535, 1),
    Brink::new(false, u32::MAX, 1),
];
