//! A bundle of tapes run one after the other, with one short line a record that
//! shows registers, digests and driven samples (the README has the format).

use crate::answer::Class;
use crate::device::Record;
use crate::tape::{run, Entry, Step};

/// Digest of a byte list: order and length both count.
pub fn digest(bytes: &[u8]) -> u32 {
    bytes.iter().fold(1u64, |sum, &byte| {
        (sum * 65_599 + u64::from(byte) + 1) % 4_294_967_291
    }) as u32
}

/// Upper-case hex digits, two a byte.
pub fn hex(bytes: &[u8]) -> String {
    const DIGITS: &[u8; 16] = b"0123456789ABCDEF";
    let mut text = String::with_capacity(bytes.len() * 2);
    for &byte in bytes {
        text.push(char::from(DIGITS[usize::from(byte >> 4)]));
        text.push(char::from(DIGITS[usize::from(byte & 15)]));
    }
    text
}

/// Latch, armed, asleep, toggle, one digit each.
pub fn flags(record: &Record) -> String {
    [record.latch, record.armed, record.asleep, record.toggle]
        .iter()
        .map(|&flag| if flag { '1' } else { '0' })
        .collect()
}

/// Status, area protection, configurations 1 to 4, MR0.
pub fn registers(record: &Record) -> String {
    let [first, second, third, fourth] = record.configurations;
    hex(&[
        record.status,
        record.area_protection,
        first,
        second,
        third,
        fourth,
        record.mr0,
    ])
}

/// The number of clocks before the first driven one and the output bytes from
/// there to the last driven one, or dashes where nothing was driven.
fn driven(step: &Step, clocks: usize) -> String {
    let output = match step.answer.class() {
        Class::Done | Class::Declined => &step.output[..clocks],
        Class::Refused => &[],
    };
    let first = output.iter().position(|&byte| byte != 0);
    let last = output.iter().rposition(|&byte| byte != 0);
    match (first, last) {
        (Some(first), Some(last)) => format!("{first} {}", hex(&output[first..=last])),
        _ => String::from("- -"),
    }
}

fn line(step: &Step) -> String {
    let record = &step.chip.record;
    let output = match step.entry {
        Entry::Transaction(samples) => {
            format!(
                "{:08X} {}",
                digest(step.output),
                driven(step, samples.len())
            )
        }
        Entry::PowerCycle | Entry::Fresh { .. } => String::from("- - -"),
    };
    format!(
        "{} {} {} {} {} {} {} {} {} {:08X} {:08X} {output}\n",
        step.number,
        step.answer,
        step.counts,
        step.chip.part.word,
        record.n,
        record.mode,
        flags(record),
        registers(record),
        hex(&record.serial),
        digest(&step.chip.memory),
        digest(&step.chip.area),
    )
}

/// Takes the next tape off a bundle: its bytes, or nothing where the bundle is
/// cut inside a length or inside a tape.
pub fn take_tape<'a>(bundle: &mut &'a [u8]) -> Option<&'a [u8]> {
    let (length, left) = bundle.split_first_chunk::<4>()?;
    let length = usize::try_from(u32::from_le_bytes(*length)).ok()?;
    let tape = left.get(..length)?;
    *bundle = &left[length..];
    Some(tape)
}

/// Prints a whole bundle through `write`, line by line.
pub fn compact(
    bundle: &[u8],
    write: &mut dyn FnMut(&str) -> std::io::Result<()>,
) -> std::io::Result<()> {
    let mut left = bundle;
    let mut number = 0;
    while !left.is_empty() {
        let Some(tape) = take_tape(&mut left) else {
            return write("cut\n");
        };
        number += 1;
        write(&format!("tape {number} {}\n", tape.len()))?;
        let mut outcome = Ok(());
        let ending = run(tape, &mut |step| {
            if outcome.is_ok() {
                outcome = write(&line(step));
            }
        });
        outcome?;
        write(&format!("{ending}\n"))?;
    }
    Ok(())
}

/// The same as one piece of text.
pub fn compact_text(bundle: &[u8]) -> String {
    let mut text = String::new();
    // Adding to a string cannot fail.
    let _ = compact(bundle, &mut |line| {
        text += line;
        Ok(())
    });
    text
}
