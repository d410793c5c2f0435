//! Probes: one call each, on any record or image and any sizes, to show what no tape
//! can (the README has the format).

use crate::answer::{Answer, Counts};
use crate::chunks::{self, Kept};
use crate::compact::{digest, hex};
use crate::device::{power_cycle, transact, Record};
use crate::image::{self, image_of, spelled, IMAGE_BYTES};
use crate::parts::{find, Part};

/// Bytes before the image and the samples of a probe.
pub const HEAD_BYTES: usize = 32;
/// The longest image that a probe has.
pub const MOST_IMAGE_BYTES: usize = 256;
/// A probe that asks for more bytes than this in one buffer is not run; no real
/// probe comes near, and a damaged file must not ask for gigabytes.
const MOST_BUFFER_BYTES: usize = 1 << 24;

/// A call on a chip.
#[derive(Clone, Copy, PartialEq, Eq, PartialOrd, Ord, Debug)]
pub enum Call {
    Transact = 1,
    PowerCycle = 2,
    Open = 3,
    Feed = 4,
    Close = 5,
}

/// All calls, in the order of their numbers.
pub const CALLS: [Call; 5] = [
    Call::Transact,
    Call::PowerCycle,
    Call::Open,
    Call::Feed,
    Call::Close,
];

impl Call {
    fn of(number: u8) -> Option<Call> {
        CALLS.into_iter().find(|&call| call as u8 == number)
    }

    pub fn word(self) -> &'static str {
        match self {
            Call::Transact => "transaction",
            Call::PowerCycle => "power cycle",
            Call::Open => "open",
            Call::Feed => "feed",
            Call::Close => "close",
        }
    }

    /// Whether the call looks at samples and at the output.
    pub fn takes_samples(self) -> bool {
        matches!(self, Call::Transact | Call::Feed)
    }

    /// Whether the call is for a chip with a transaction open.
    pub fn wants_open(self) -> bool {
        matches!(self, Call::Feed | Call::Close)
    }
}

/// What a probe does.
#[derive(Clone, Copy, PartialEq, Eq, Debug)]
pub enum Task {
    /// A call over the record that the image spells.
    Record(Call),
    /// A call over the image.
    Image(Call),
    /// A fresh chip of this part into the image.
    Fresh(&'static Part),
}

impl Task {
    pub fn number(self) -> u8 {
        match self {
            Task::Record(call) => call as u8,
            Task::Image(call) => 10 + call as u8,
            Task::Fresh(part) => 20 + part.number,
        }
    }

    pub fn of(number: u8) -> Option<Task> {
        let digit = number % 10;
        match number / 10 {
            0 => Call::of(digit).map(Task::Record),
            1 => Call::of(digit).map(Task::Image),
            2 => find(digit).map(Task::Fresh),
            _ => None,
        }
    }

    /// The call, unless a chip is made.
    pub fn call(self) -> Option<Call> {
        match self {
            Task::Record(call) | Task::Image(call) => Some(call),
            Task::Fresh(_) => None,
        }
    }
}

/// What a call goes over.
#[derive(Clone, Copy, PartialEq, Eq, Debug)]
pub enum Over {
    Record,
    Image,
}

impl Over {
    pub fn task(self, call: Call) -> Task {
        match self {
            Over::Record => Task::Record(call),
            Over::Image => Task::Image(call),
        }
    }

    /// The call of a task over this.
    pub fn call_of(self, task: Task) -> Option<Call> {
        task.call().filter(|&call| self.task(call) == task)
    }
}

/// One call with everything it is given.
#[derive(Clone, PartialEq, Eq, Debug)]
pub struct Probe {
    pub task: Task,
    /// The image, memory and area are those that the probe before left.
    pub goes_on: bool,
    pub seed: u8,
    /// Of a fresh chip.
    pub n: u8,
    /// Empty in a probe that goes on.
    pub image: Vec<u8>,
    pub memory_bytes: usize,
    pub area_bytes: usize,
    pub output_bytes: usize,
    /// Of a fresh chip: how many of the samples are its identity, and how many behind
    /// them its unique number.
    pub identity_bytes: usize,
    pub unique_bytes: usize,
    pub samples: Vec<u8>,
}

impl Probe {
    pub fn to_bytes(&self) -> Vec<u8> {
        let mut bytes = vec![
            self.task.number(),
            u8::from(self.goes_on),
            self.seed,
            self.n,
        ];
        for number in [
            self.memory_bytes,
            self.area_bytes,
            self.samples.len(),
            self.output_bytes,
            self.image.len(),
            self.identity_bytes,
            self.unique_bytes,
        ] {
            bytes.extend((number as u32).to_le_bytes());
        }
        bytes.extend(&self.image);
        bytes.extend(&self.samples);
        bytes
    }

    /// Takes the next probe off a file, or nothing where the file is cut, names
    /// no known call, asks for an absurd buffer or has an image of a length that
    /// the call may not have.
    pub fn take(file: &mut &[u8]) -> Option<Probe> {
        let (head, left) = file.split_first_chunk::<HEAD_BYTES>()?;
        let length = |at: usize| -> Option<usize> {
            let number = [head[at], head[at + 1], head[at + 2], head[at + 3]];
            usize::try_from(u32::from_le_bytes(number)).ok()
        };
        let buffer = |at: usize| length(at).filter(|&bytes| bytes <= MOST_BUFFER_BYTES);
        let goes_on = match head[1] {
            0 => false,
            1 => true,
            _ => return None,
        };
        let (image_bytes, sample_bytes) = (length(20)?, length(12)?);
        let image_fits = if goes_on {
            image_bytes == 0
        } else {
            image_bytes <= MOST_IMAGE_BYTES
        };
        if !image_fits {
            return None;
        }
        let image = left.get(..image_bytes)?;
        let left = &left[image_bytes..];
        let samples = left.get(..sample_bytes)?;
        let probe = Probe {
            task: Task::of(head[0])?,
            goes_on,
            seed: head[2],
            n: head[3],
            image: image.to_vec(),
            memory_bytes: buffer(4)?,
            area_bytes: buffer(8)?,
            output_bytes: buffer(16)?,
            identity_bytes: length(24)?,
            unique_bytes: length(28)?,
            samples: samples.to_vec(),
        };
        let fits = match probe.task {
            Task::Record(_) => goes_on || image_bytes == IMAGE_BYTES,
            Task::Image(_) => true,
            Task::Fresh(_) => probe
                .identity_bytes
                .checked_add(probe.unique_bytes)
                .is_some_and(|both| both <= sample_bytes),
        };
        *file = &left[sample_bytes..];
        fits.then_some(probe)
    }

    /// The record that the image spells, if it has the right length.
    pub fn record(&self) -> Option<Record> {
        spelled(&self.image)
    }

    /// Changes the record that the image spells, if there is one.
    pub fn edit(&mut self, change: impl FnOnce(&mut Record)) {
        if let Some(mut record) = self.record() {
            change(&mut record);
            self.image = image_of(&record);
        }
    }

    /// The same call over the image instead of its record.
    pub fn over_image(self) -> Probe {
        let task = match self.task {
            Task::Record(call) => Task::Image(call),
            task => task,
        };
        Probe { task, ..self }
    }

    /// Makes the call of a probe that does not go on from another and tells
    /// everything that can be seen afterwards.
    pub fn run(&self) -> Option<Outcome> {
        Bench::of(self).call(self)
    }
}

/// Bytes that tell their places, from a seed on.
fn fill(bytes: usize, value: impl Fn(u64) -> u64) -> Vec<u8> {
    (0..bytes as u64).map(|i| value(i) as u8).collect()
}

/// A chip while probes go on from each other.
pub struct Bench {
    image: Vec<u8>,
    /// As much as the first probe has filled, lent in full or in part.
    memory: Vec<u8>,
    area: Vec<u8>,
    /// What calls over the record keep of an open transaction. Calls over the image
    /// have the image alone.
    kept: Option<Kept>,
}

impl Bench {
    /// The chip that a probe begins with.
    fn of(probe: &Probe) -> Bench {
        let seed = u64::from(probe.seed);
        Bench {
            image: probe.image.clone(),
            memory: fill(probe.memory_bytes, |i| seed + i * 7 + i / 251),
            area: fill(probe.area_bytes, |i| seed + 3 + i * 5),
            kept: None,
        }
    }

    /// Makes the probe's call. Nothing comes of one that would be lent more than there
    /// is, or over the record of an image that has not the length of one.
    fn call(&mut self, probe: &Probe) -> Option<Outcome> {
        let seed = u64::from(probe.seed);
        let before = self.image.clone();
        let memory = self.memory.get_mut(..probe.memory_bytes)?;
        let area = self.area.get_mut(..probe.area_bytes)?;
        let mut output = fill(probe.output_bytes, |i| seed + 11 + i * 13);
        let (samples, room) = (&probe.samples[..], &mut output[..]);
        let kept = &mut self.kept;
        let image = &mut self.image;
        if !matches!(probe.task, Task::Record(_)) {
            *kept = None;
        }
        let (answer, counts) = match probe.task {
            Task::Record(call) => {
                let record = &mut spelled(image)?;
                let told = match call {
                    Call::Transact => transact(record, memory, area, samples, room),
                    Call::PowerCycle => power_cycle(record, memory, area),
                    Call::Open => chunks::open(record, memory, area, kept),
                    Call::Feed => chunks::feed(record, memory, area, kept, samples, room),
                    Call::Close => chunks::close(record, memory, area, kept),
                };
                *image = image_of(record);
                told
            }
            Task::Image(Call::Transact) => image::transact(image, memory, area, samples, room),
            Task::Image(Call::PowerCycle) => image::power_cycle(image, memory, area),
            Task::Image(Call::Open) => image::open(image, memory, area),
            Task::Image(Call::Feed) => image::feed(image, memory, area, samples, room),
            Task::Image(Call::Close) => image::close(image, memory, area),
            Task::Fresh(part) => {
                let (identity, more) = samples.split_at_checked(probe.identity_bytes)?;
                let unique = more.get(..probe.unique_bytes)?;
                let answer = image::fresh(part, image, probe.n, identity, unique);
                (answer, Counts::default())
            }
        };
        Some(Outcome {
            answer,
            counts,
            before,
            image: image.clone(),
            memory: memory.to_vec(),
            area: area.to_vec(),
            output,
        })
    }
}

/// Runs probes one after the other.
#[derive(Default)]
pub struct Runner {
    bench: Option<Bench>,
}

impl Runner {
    /// Runs the next probe. Nothing comes of one that goes on with none before it, or
    /// that does not run where it stands.
    pub fn run(&mut self, probe: &Probe) -> Option<Outcome> {
        if !probe.goes_on {
            self.bench = Some(Bench::of(probe));
        }
        self.bench.as_mut()?.call(probe)
    }
}

/// All that a call leaves.
pub struct Outcome {
    pub answer: Answer,
    pub counts: Counts,
    /// The image before the call.
    pub before: Vec<u8>,
    pub image: Vec<u8>,
    /// What was lent of memory and area.
    pub memory: Vec<u8>,
    pub area: Vec<u8>,
    pub output: Vec<u8>,
}

impl Outcome {
    /// The record that the image before the call spells.
    pub fn record_before(&self) -> Option<Record> {
        spelled(&self.before)
    }

    /// The record that the image after the call spells.
    pub fn record(&self) -> Option<Record> {
        spelled(&self.image)
    }
}

fn line(number: usize, outcome: &Outcome) -> String {
    let image = if outcome.image.is_empty() {
        String::from("-")
    } else {
        hex(&outcome.image)
    };
    format!(
        "{number} {} {} {image} {:08X} {:08X} {:08X}\n",
        outcome.answer,
        outcome.counts,
        digest(&outcome.memory),
        digest(&outcome.area),
        digest(&outcome.output),
    )
}

/// Prints a whole probe file through `write`, line by line.
pub fn probe(
    file: &[u8],
    write: &mut dyn FnMut(&str) -> std::io::Result<()>,
) -> std::io::Result<()> {
    let mut left = file;
    let mut number = 0;
    let mut runner = Runner::default();
    while !left.is_empty() {
        let outcome = Probe::take(&mut left).and_then(|probe| runner.run(&probe));
        let Some(outcome) = outcome else {
            return write("cut\n");
        };
        number += 1;
        write(&line(number, &outcome))?;
    }
    Ok(())
}

/// The same as one piece of text.
pub fn probe_text(file: &[u8]) -> String {
    let mut text = String::new();
    // Adding to a string cannot fail.
    let _ = probe(file, &mut |line| {
        text += line;
        Ok(())
    });
    text
}
