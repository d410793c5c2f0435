//! The bench tape: its reader, the chip that it drives, and the lines that the
//! bench prints (document 01, "Bench tape").

use crate::answer::{Answer, Counts};
use crate::device::{fresh, power_cycle, transact, Record};
use crate::parts::{find, Part};

/// The longest tape in bytes.
pub const MOST_TAPE_BYTES: usize = 65_536;
/// The most samples in one transaction of a tape.
pub const MOST_TAPE_SAMPLES: usize = 4_096;
/// The largest n of a chip on a tape; the least is that of its part.
pub const MOST_TAPE_N: u8 = 15;
/// Bytes before a payload: two of length, two of kind.
pub const HEAD_BYTES: usize = 4;

/// One good record of a tape.
#[derive(Clone, Copy, PartialEq, Eq, Debug)]
pub enum Entry<'a> {
    Transaction(&'a [u8]),
    PowerCycle,
    Fresh { part: &'static Part, n: u8 },
}

/// What the reader finds at its place.
#[derive(Clone, Copy, PartialEq, Eq, Debug)]
pub enum Next<'a> {
    Entry(Entry<'a>),
    End,
    /// Offset of the first byte of the bad record.
    Bad(usize),
}

/// Holds the tape and the place in it. It also knows whether a fresh chip has
/// come by, since nothing else is good before one.
pub struct Reader<'a> {
    tape: &'a [u8],
    place: usize,
    chip_seen: bool,
}

impl<'a> Reader<'a> {
    pub fn new(tape: &'a [u8]) -> Reader<'a> {
        Reader {
            tape,
            place: 0,
            chip_seen: false,
        }
    }

    /// Takes the next record. A bad one is not passed: it is found again.
    pub fn take(&mut self) -> Next<'a> {
        if self.tape.len() > MOST_TAPE_BYTES {
            return Next::Bad(0);
        }
        let left = &self.tape[self.place..];
        if left.is_empty() {
            return Next::End;
        }
        if left.len() < HEAD_BYTES {
            return Next::Bad(self.place);
        }
        let length = usize::from(u16::from_le_bytes([left[0], left[1]]));
        let kind = u16::from_le_bytes([left[2], left[3]]);
        let Some(payload) = left.get(HEAD_BYTES..HEAD_BYTES + length) else {
            return Next::Bad(self.place);
        };
        let entry = match (kind, payload) {
            (1, samples) if length <= MOST_TAPE_SAMPLES => Some(Entry::Transaction(samples)),
            (2, []) => Some(Entry::PowerCycle),
            (3, &[number, n]) if n <= MOST_TAPE_N => find(number)
                .filter(|part| part.allows_n(n))
                .map(|part| Entry::Fresh { part, n }),
            _ => None,
        };
        let Some(entry) = entry else {
            return Next::Bad(self.place);
        };
        match entry {
            Entry::Fresh { .. } => self.chip_seen = true,
            _ if self.chip_seen => {}
            _ => return Next::Bad(self.place),
        }
        self.place += HEAD_BYTES + length;
        Next::Entry(entry)
    }
}

/// A record together with the memory and the area it belongs to.
#[derive(Clone, PartialEq, Eq, Debug)]
pub struct Chip {
    pub part: &'static Part,
    pub record: Record,
    pub memory: Vec<u8>,
    pub area: Vec<u8>,
}

impl Chip {
    /// A fresh chip as the tape makes it: all numbers and all memory 0. The
    /// reader has seen to it that `n` is small.
    pub fn fresh(part: &'static Part, n: u8) -> Chip {
        Chip {
            part,
            record: fresh(part, n, [0; 8], [0; 8]),
            memory: vec![0; 1usize << n],
            area: vec![0; part.area_bytes],
        }
    }
}

/// One tape record after it has run.
pub struct Step<'a> {
    /// Number of the record on its tape, from 1.
    pub number: usize,
    pub entry: Entry<'a>,
    /// The chip's record before this step, if there was a chip.
    pub before: Option<Record>,
    pub answer: Answer,
    pub counts: Counts,
    /// The chip after this step.
    pub chip: &'a Chip,
    /// The whole output buffer after a transaction, empty for other kinds.
    pub output: &'a [u8],
}

/// How a tape ends.
#[derive(Clone, Copy, PartialEq, Eq, Debug)]
pub enum Ending {
    /// The number of records.
    End(usize),
    /// The offset of the bad record.
    Bad(usize),
}

impl std::fmt::Display for Ending {
    fn fmt(&self, f: &mut std::fmt::Formatter<'_>) -> std::fmt::Result {
        match self {
            Ending::End(records) => write!(f, "end {records}"),
            Ending::Bad(offset) => write!(f, "bad {offset}"),
        }
    }
}

/// Spare output bytes lent with each transaction, so that a write past the
/// clocks would show.
pub const SPARE_OUTPUT: usize = 3;
/// What the output buffer holds before each transaction.
pub const OUTPUT_FILL: u8 = 0xA5;

/// Runs a tape and shows each record to `look` once it has run.
pub fn run(tape: &[u8], look: &mut dyn FnMut(&Step)) -> Ending {
    let mut reader = Reader::new(tape);
    let mut chip: Option<Chip> = None;
    let mut number = 0;
    loop {
        let entry = match reader.take() {
            Next::End => return Ending::End(number),
            Next::Bad(offset) => return Ending::Bad(offset),
            Next::Entry(entry) => entry,
        };
        number += 1;
        let before = chip.as_ref().map(|chip| chip.record);
        let mut output = Vec::new();
        let (answer, counts) = match (entry, &mut chip) {
            (Entry::Fresh { part, n }, _) => {
                chip = Some(Chip::fresh(part, n));
                (Answer::Done, Counts::default())
            }
            (Entry::PowerCycle, Some(chip)) => {
                power_cycle(&mut chip.record, &mut chip.memory, &mut chip.area)
            }
            (Entry::Transaction(samples), Some(chip)) => {
                output = vec![OUTPUT_FILL; samples.len() + SPARE_OUTPUT];
                transact(
                    &mut chip.record,
                    &mut chip.memory,
                    &mut chip.area,
                    samples,
                    &mut output,
                )
            }
            // The reader lets nothing by before a fresh chip.
            (_, None) => (Answer::Done, Counts::default()),
        };
        if let Some(chip) = &chip {
            look(&Step {
                number,
                entry,
                before,
                answer,
                counts,
                chip,
                output: &output,
            });
        }
    }
}

/// All that the bench prints for one tape, each line with its line feed.
pub fn bench(tape: &[u8]) -> String {
    let mut text = format!("record answer {}\n", Counts::TITLE);
    let ending = run(tape, &mut |step| {
        text += &format!("{} {} {}\n", step.number, step.answer, step.counts);
    });
    text += &format!("{ending}\n");
    text
}
