//! Drawn records: valid ones in all states, and ones in which a register is wrong.

use crate::compose::{pick_configurations, pick_mr0, spoil_configurations};
use crate::device::{fresh, Record};
use crate::parts::{find, Family, Part, P};
use crate::rng::Rng;

/// A random record of this part in which nothing is wrong.
pub fn valid_record(rng: &mut Rng, part: &Part) -> Record {
    // Filling a large memory takes its time.
    let n = match rng.below(80) {
        0..=47 => part.least_n,
        48..=70 => 11 + rng.below(3) as u8,
        71..=78 => 14 + rng.below(4) as u8,
        _ => part.most_n - 3 + rng.below(4) as u8,
    };
    let mut record = fresh(part, n, [0; 8], [0; 8]);
    record.mode = rng.pick(part.modes());
    record.armed = rng.chance(1, 3);
    record.identity = rng.eight();
    record.identity[part.identity_bytes..].fill(0);
    match part.family {
        Family::Mram => {
            record.unique = rng.eight();
            record.serial = rng.eight();
            record.latch = rng.chance(2, 3);
            record.asleep = rng.chance(1, 12);
            record.status = (rng.below(16) << 2) as u8;
            record.area_protection = rng.byte();
            record.configurations = pick_configurations(rng, part);
        }
        Family::Psram => {
            record.mr0 = pick_mr0(rng);
            record.toggle = rng.chance(1, 3);
        }
    }
    record
}

/// A random record of this part in which nothing is wrong and that takes commands,
/// writes too.
pub fn ready_record(rng: &mut Rng, part: &Part) -> Record {
    let mut record = valid_record(rng, part);
    record.asleep = false;
    record.latch = part.family == Family::Mram;
    record
}

/// Puts one thing into a record that its part does not allow.
pub fn spoil_record(rng: &mut Rng, record: &mut Record) {
    match find(record.part) {
        Some(part) => match part.family {
            Family::Mram => spoil_mram(rng, part, record),
            Family::Psram => spoil_psram(rng, record),
        },
        // Of a record of no part nothing shows but answer 1, whatever is in it.
        None => spoil_psram(rng, record),
    }
}

fn spoil_mram(rng: &mut Rng, part: &Part, record: &mut Record) {
    let bit = 1u8 << rng.below(8);
    let at = rng.below(8);
    let past_identity = &mut record.identity[part.identity_bytes..];
    match rng.below(16) {
        0 | 1 => record.mode = rng.pick(&[0, 3, 5, 6, 7, 8, 255]),
        2..=4 => record.status |= rng.pick(&[0x80, 0x40, 0x02, 0x01]),
        5..=11 => spoil_configurations(rng, part, &mut record.configurations),
        12 => record.mr0 = rng.pick(&[bit, P.fresh_mr0]),
        13 => record.toggle = true,
        _ => past_identity[at % past_identity.len()] = bit,
    }
}

fn spoil_psram(rng: &mut Rng, record: &mut Record) {
    let bit = 1u8 << rng.below(8);
    let at = rng.below(8);
    match rng.below(16) {
        0 | 1 => record.mode = rng.pick(&[0, 2, 2, 3, 5, 8, 255]),
        2..=6 => record.mr0 |= rng.pick(&[0x80, 0x10, 0x08, 0x04, 0x03]),
        7 => record.status = bit,
        8 => record.area_protection = bit,
        9 | 10 => record.configurations[at % 4] = bit,
        11 => record.latch = true,
        12 => record.asleep = true,
        13 => record.serial[at] = bit,
        _ => record.unique[at] = bit,
    }
}
