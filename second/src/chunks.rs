//! A transaction that comes in chunks: open, feed, close (document 02, P1).
//!
//! Nothing is stepped here. All samples so far are kept, and each call runs the
//! whole transaction over them, from the chip as it was when it was opened. What a
//! chunk drives and stores is what the longer run does beyond the shorter one;
//! what becomes of the registers is looked at only in the run of the close.

use crate::answer::{Answer, Counts};
use crate::device::{sized_part, state_fits, transact, Record, MOST_CLOCKS};
use crate::facts::{facts, rebuild, Open};
use crate::parts::Part;

/// A chip when a transaction was opened, and the samples since.
#[derive(Clone, PartialEq, Eq, Debug)]
pub struct Kept {
    record: Record,
    memory: Vec<u8>,
    area: Vec<u8>,
    samples: Vec<u8>,
}

/// What one whole run leaves.
struct After {
    record: Record,
    memory: Vec<u8>,
    area: Vec<u8>,
    output: Vec<u8>,
    answer: Answer,
    counts: Counts,
}

impl Kept {
    /// What is kept from the open on.
    fn new(record: &Record, memory: &[u8], area: &[u8]) -> Kept {
        Kept {
            record: Record {
                open: Open::default(),
                ..*record
            },
            memory: memory.to_vec(),
            area: area.to_vec(),
            samples: Vec::new(),
        }
    }

    /// The same for a record whose open transaction is known by its facts alone.
    /// Memory and area are taken as they stand: the samples found for the facts
    /// store nothing that is not there.
    fn of_facts(part: &Part, record: &Record, memory: &[u8], area: &[u8]) -> Kept {
        Kept {
            samples: rebuild(part, record, memory, area),
            ..Kept::new(record, memory, area)
        }
    }

    /// Runs the transaction as if it ended here.
    fn run(&self) -> After {
        let mut after = After {
            record: self.record,
            memory: self.memory.clone(),
            area: self.area.clone(),
            output: vec![0; self.samples.len()],
            answer: Answer::Done,
            counts: Counts::default(),
        };
        (after.answer, after.counts) = transact(
            &mut after.record,
            &mut after.memory,
            &mut after.area,
            &self.samples,
            &mut after.output,
        );
        after
    }
}

/// Opens a transaction. What the calls that follow need is put into `kept`.
pub fn open(
    record: &mut Record,
    memory: &[u8],
    area: &[u8],
    kept: &mut Option<Kept>,
) -> (Answer, Counts) {
    let Some(part) = sized_part(record, memory, area) else {
        return (Answer::Size, Counts::default());
    };
    if !state_fits(part, record) {
        return (Answer::State, Counts::default());
    }
    if record.open.flag {
        return (Answer::Turn, Counts::default());
    }
    *kept = Some(Kept::new(record, memory, area));
    record.open.flag = true;
    (Answer::Done, Counts::default())
}

/// Feeds a chunk, also one of no clocks. Where nothing is kept of the transaction,
/// its facts in the record stand for it.
pub fn feed(
    record: &mut Record,
    memory: &mut [u8],
    area: &mut [u8],
    kept: &mut Option<Kept>,
    samples: &[u8],
    output: &mut [u8],
) -> (Answer, Counts) {
    // The record may tell any number of clocks, also one that no transaction has.
    let clocks_before = if record.open.flag {
        u64::from(record.open.clocks)
    } else {
        0
    };
    let clocks = clocks_before + samples.len() as u64;
    let sizes_fit = clocks <= MOST_CLOCKS as u64 && output.len() >= samples.len();
    let part = sized_part(record, memory, area).filter(|_| sizes_fit);
    let Some(part) = part else {
        return (Answer::Size, Counts::default());
    };
    if samples.iter().any(|&sample| sample > 15) {
        return (Answer::Sample, Counts::default());
    }
    if !state_fits(part, record) {
        return (Answer::State, Counts::default());
    }
    if !record.open.flag {
        return (Answer::Turn, Counts::default());
    }
    let kept = kept.get_or_insert_with(|| Kept::of_facts(part, record, memory, area));
    let first = kept.samples.len();
    kept.samples.extend(samples);
    let after = kept.run();
    memory.copy_from_slice(&after.memory);
    area.copy_from_slice(&after.area);
    output[..samples.len()].copy_from_slice(&after.output[first..]);
    record.open = facts(part, &kept.record, &kept.samples);
    (Answer::Done, Counts::default())
}

/// Closes the transaction; answer, counts and registers are those of the whole.
pub fn close(
    record: &mut Record,
    memory: &mut [u8],
    area: &mut [u8],
    kept: &mut Option<Kept>,
) -> (Answer, Counts) {
    let Some(part) = sized_part(record, memory, area) else {
        return (Answer::Size, Counts::default());
    };
    if !state_fits(part, record) {
        return (Answer::State, Counts::default());
    }
    if !record.open.flag {
        return (Answer::Turn, Counts::default());
    }
    let kept = kept
        .take()
        .unwrap_or_else(|| Kept::of_facts(part, record, memory, area));
    let after = kept.run();
    memory.copy_from_slice(&after.memory);
    area.copy_from_slice(&after.area);
    *record = after.record;
    (after.answer, after.counts)
}
