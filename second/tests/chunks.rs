//! Transactions in chunks: the facts that a record holds of an open one, which facts
//! fit, the order of the checks, and that chunks make no difference.

mod common;

use std::collections::BTreeSet;

use common::{at, five, join, on, out, Bench, M, M32, P};
use second::answer::{Answer, Class, Counts};
use second::chunks::{close, feed, open, Kept};
use second::compose::{compose, disturb, Plan};
use second::device::{power_cycle, state_fits, transact, Record};
use second::facts::Open;
use second::parts::{find, Part, PARTS};
use second::records::valid_record;
use second::rng::Rng;

const NOTHING: Counts = Counts {
    command: 0,
    address: 0,
    wait: 0,
    data: 0,
    rest: 0,
};

/// A chip that is fed. What is kept beside the record can be thrown away before
/// each call, so that the facts alone have to do.
struct Fed {
    chip: Bench,
    kept: Option<Kept>,
    by_facts: bool,
}

impl Fed {
    fn new(chip: Bench, by_facts: bool) -> Fed {
        Fed {
            chip,
            kept: None,
            by_facts,
        }
    }

    fn forget(&mut self) {
        if self.by_facts {
            self.kept = None;
        }
    }

    fn open(&mut self) -> u8 {
        let chip = &mut self.chip;
        let (answer, counts) = open(&mut chip.record, &chip.memory, &chip.area, &mut self.kept);
        assert_eq!(counts, NOTHING);
        answer.number()
    }

    /// Feeds a chunk and tells the answer and what was driven.
    fn feed(&mut self, chunk: &[u8]) -> (u8, Vec<u8>) {
        self.forget();
        let chip = &mut self.chip;
        let mut output = vec![0xA5; chunk.len() + 3];
        let (answer, counts) = feed(
            &mut chip.record,
            &mut chip.memory,
            &mut chip.area,
            &mut self.kept,
            chunk,
            &mut output,
        );
        assert_eq!(counts, NOTHING);
        assert_eq!(output[chunk.len()..], [0xA5; 3], "room past the chunk");
        output.truncate(chunk.len());
        if answer.class() == Class::Refused {
            assert!(output.iter().all(|&byte| byte == 0xA5));
        }
        (answer.number(), output)
    }

    fn close(&mut self) -> (u8, Counts) {
        self.forget();
        let chip = &mut self.chip;
        let (answer, counts) = close(
            &mut chip.record,
            &mut chip.memory,
            &mut chip.area,
            &mut self.kept,
        );
        if answer.class() != Class::Refused {
            assert_eq!(chip.record.open, Open::default());
        }
        (answer.number(), counts)
    }

    fn facts(&self) -> Open {
        self.chip.record.open
    }
}

fn copy(chip: &Bench) -> Bench {
    Bench {
        record: chip.record,
        memory: chip.memory.clone(),
        area: chip.area.clone(),
        output: Vec::new(),
        answer: Answer::Done,
    }
}

/// The facts after so many clocks of a transaction.
fn facts_after(chip: &Bench, samples: &[u8], clocks: usize) -> Open {
    let mut fed = Fed::new(copy(chip), false);
    assert_eq!(fed.open(), 0);
    assert_eq!(fed.feed(&samples[..clocks]).0, 0);
    fed.facts()
}

fn known(clocks: u32, opcode: u8, address: u32, number: u32, value: &[u8]) -> Open {
    let mut open = Open {
        flag: true,
        clocks,
        opcode,
        address,
        number,
        value: [0; 8],
    };
    open.value[..value.len()].copy_from_slice(value);
    open
}

#[test]
fn facts_of_a_memory_write_on_one_wire() {
    let chip = Bench::m();
    let samples = on(1, &join(&[&[0x02], &at(0x123), &[0xA5, 0xC3]]));
    let after = |clocks: usize| facts_after(&chip, &samples, clocks);
    assert_eq!(after(0), known(0, 0, 0, 0, &[]));
    assert_eq!(after(3), known(3, 0, 0, 0, &[]));
    // 0000001
    assert_eq!(after(7), known(7, 0, 0, 1, &[]));
    assert_eq!(after(8), known(8, 2, 0, 0, &[]));
    assert_eq!(after(8 + 16), known(24, 2, 0, 0x001, &[]));
    assert_eq!(after(8 + 23), known(31, 2, 0, 0x123 >> 1, &[]));
    assert_eq!(after(32), known(32, 2, 0x123, 0, &[]));
    assert_eq!(after(35), known(35, 2, 0x123, 0b101, &[]));
    assert_eq!(after(39), known(39, 2, 0x123, 0xA5 >> 1, &[]));
    assert_eq!(after(40), known(40, 2, 0x123, 0, &[]));
    assert_eq!(after(42), known(42, 2, 0x123, 0b11, &[]));
    assert_eq!(after(48), known(48, 2, 0x123, 0, &[]));
}

#[test]
fn facts_of_register_writes() {
    for mut chip in [Bench::m(), Bench::m32()] {
        // Whether the latch is up does not matter, nor whether the value is allowed.
        chip.record.mode = 2;
        let samples = on(2, &[0x87, 0xFF, 0x12, 0x34, 0x56, 0x78]);
        let after = |clocks: usize| facts_after(&chip, &samples, clocks);
        assert_eq!(after(3), known(3, 0, 0, 0x87 >> 2, &[]));
        assert_eq!(after(4), known(4, 0x87, 0, 0, &[]));
        assert_eq!(after(7), known(7, 0x87, 0, 0x3F, &[]));
        assert_eq!(after(8), known(8, 0x87, 0, 0, &[0xFF]));
        assert_eq!(after(11), known(11, 0x87, 0, 0x12 >> 2, &[0xFF]));
        assert_eq!(after(19), known(19, 0x87, 0, 0x15, &[0xFF, 0x12, 0x34]));
        let whole = [0xFF, 0x12, 0x34, 0x56];
        assert_eq!(after(20), known(20, 0x87, 0, 0, &whole));
        // What makes it too long is rest, and not gathered.
        assert_eq!(after(22), known(22, 0x87, 0, 0, &whole));
    }
    let mut chip = Bench::p();
    chip.record.mode = 4;
    let samples = on(4, &join(&[&[0xB1], &at(0xABCDE0), &[0x7F], &[0xFF]]));
    let after = |clocks: usize| facts_after(&chip, &samples, clocks);
    assert_eq!(after(1), known(1, 0, 0, 0xB, &[]));
    assert_eq!(after(7), known(7, 0xB1, 0, 0xABCDE, &[]));
    // All 24 bits, though most of them are ignored.
    assert_eq!(after(8), known(8, 0xB1, 0xABCDE0, 0, &[]));
    assert_eq!(after(9), known(9, 0xB1, 0xABCDE0, 7, &[]));
    assert_eq!(after(10), known(10, 0xB1, 0xABCDE0, 0, &[0x7F]));
    assert_eq!(after(12), known(12, 0xB1, 0xABCDE0, 0, &[0x7F]));
}

#[test]
fn facts_where_nothing_is_gathered() {
    // 7: the address is kept, what comes behind it is not.
    let chip = Bench::m();
    let samples = on(1, &join(&[&[0x02], &at(0x400), &[0xFF, 0xFF]]));
    assert_eq!(
        facts_after(&chip, &samples, 31),
        known(31, 2, 0, 0x200, &[])
    );
    for clocks in 32..=48 {
        let expected = known(clocks as u32, 2, 0x400, 0, &[]);
        assert_eq!(facts_after(&chip, &samples, clocks), expected);
    }
    let mut chip = Bench::p();
    let samples = on(1, &join(&[&[0xB1], &at(0x000001), &[0xFF]]));
    assert_eq!(facts_after(&chip, &samples, 40), known(40, 0xB1, 1, 0, &[]));
    // The wait and the data of a read; the command alone is on one wire.
    let samples = join(&[&on(1, &[0xEB]), &on(4, &at(0xFEDCBA)), &[15; 10]]);
    chip.record.n = 10;
    assert_eq!(
        facts_after(&chip, &samples, 12),
        known(12, 0xEB, 0, 0xFEDC, &[])
    );
    for clocks in 14..=24 {
        let expected = known(clocks as u32, 0xEB, 0xFEDCBA, 0, &[]);
        assert_eq!(facts_after(&chip, &samples, clocks), expected);
    }
    // 6 and 5, and a command without data: there is no address.
    let mut chip = Bench::m32();
    chip.record.asleep = true;
    let samples = on(1, &[0x02, 0xFF, 0xFF, 0xFF, 0xFF]);
    for clocks in 8..=40 {
        let expected = known(clocks as u32, 2, 0, 0, &[]);
        assert_eq!(facts_after(&chip, &samples, clocks), expected);
    }
    assert_eq!(facts_after(&chip, &samples, 7), known(7, 0, 0, 1, &[]));
    chip.record.asleep = false;
    for opcode in [0x0B, 0x06, 0xFF, 0x05] {
        let samples = on(1, &[opcode, 0xFF, 0xFF]);
        for clocks in 8..=24 {
            let expected = known(clocks as u32, opcode, 0, 0, &[]);
            assert_eq!(facts_after(&chip, &samples, clocks), expected);
        }
    }
}

/// Every run of up to four clocks on four wires: the facts that are reached, and no
/// others, fit.
#[test]
fn exactly_the_reached_facts_fit() {
    for (number, asleep) in [(M, false), (M, true), (M32, false), (P, false)] {
        let part = find(number).unwrap();
        let mut chip = Bench::new(number, 10);
        chip.record.mode = 4;
        chip.record.asleep = asleep;
        let mut reached = BTreeSet::new();
        let key = |open: &Open| {
            let Open {
                flag,
                clocks,
                opcode,
                address,
                number,
                value,
            } = *open;
            (flag, clocks, opcode, address, number, value)
        };
        for clocks in 0..=4u32 {
            for all in 0..1u32 << (4 * clocks) {
                let samples: Vec<u8> = (0..clocks)
                    .map(|clock| (all >> (4 * clock)) as u8 & 15)
                    .collect();
                reached.insert(key(&second::facts::facts(part, &chip.record, &samples)));
            }
        }
        let mut fitting = 0;
        let mut values = vec![[0; 8]];
        for at in 0..8 {
            for byte in [1, 0x5A, 0xFF] {
                let mut value = [0; 8];
                value[at] = byte;
                values.push(value);
            }
        }
        for clocks in 0..=4 {
            for opcode in 0..=255 {
                for address in [0, 1, 0x10, 0xFF_FFFF] {
                    for number in [0, 1, 2, 14, 15, 16, 17, 0x5A, 255, 256, 1 << 28] {
                        for value in &values {
                            let open = Open {
                                flag: true,
                                clocks,
                                opcode,
                                address,
                                number,
                                value: *value,
                            };
                            let record = Record {
                                open,
                                ..chip.record
                            };
                            let fits = state_fits(part, &record);
                            assert_eq!(fits, reached.contains(&key(&open)), "{open:?}");
                            fitting += u32::from(fits);
                        }
                    }
                }
            }
        }
        assert!(fitting > 700, "{fitting}");
    }
}

#[test]
fn facts_that_fit_and_facts_that_do_not() {
    let m = Bench::m();
    let part = find(M).unwrap();
    let fits = |open: Open| state_fits(part, &Record { open, ..m.record });
    // None open.
    assert!(fits(Open::default()));
    for open in [
        known(1, 0, 0, 0, &[]),
        known(0, 1, 0, 0, &[]),
        known(0, 0, 1, 0, &[]),
        known(0, 0, 0, 1, &[]),
        known(0, 0, 0, 0, &[0, 0, 0, 0, 0, 0, 0, 1]),
    ] {
        assert!(!fits(Open {
            flag: false,
            ..open
        }));
    }
    // The largest number fits, one more does not.
    for (clocks, opcode, address, largest) in [
        (1, 0, 0, 1),
        (7, 0, 0, 0x7F),
        (9, 0x02, 0, 1),
        (31, 0x02, 0, 0x7F_FFFF),
        (33, 0x02, 0x3FF, 1),
        (39, 0x42, 0xFF, 0x7F),
        (15, 0x01, 0, 0x7F),
    ] {
        assert!(fits(known(clocks, opcode, address, largest, &[])));
        assert!(!fits(known(clocks, opcode, address, largest + 1, &[])));
        assert!(!fits(known(clocks, opcode, address, u32::MAX, &[])));
    }
    // Where nothing is gathered there is no number.
    for (clocks, opcode, address) in [
        (0, 0, 0),
        (8, 0x02, 0),
        (32, 0x02, 5),
        (40, 0x02, 5),
        (16, 0x01, 0),
        (20, 0x01, 0),
        (33, 0x65, 0),
        (43, 0x65, 0),
        (33, 0x03, 0),
        (10, 0x0B, 0),
        (10, 0x06, 0),
        (35, 0x02, 0x400),
        (50, 0x9F, 0),
    ] {
        assert!(fits(known(clocks, opcode, address, 0, &[])), "{opcode:02X}");
        assert!(!fits(known(clocks, opcode, address, 1, &[])));
    }
    // Addresses: only when whole, only where there is one, 24 bits.
    assert!(fits(known(32, 0x02, 0xFF_FFFF, 0, &[])));
    assert!(!fits(known(32, 0x02, 0x100_0000, 0, &[])));
    assert!(!fits(known(31, 0x02, 1, 0, &[])));
    assert!(!fits(known(8, 0x06, 1, 0, &[])));
    assert!(!fits(known(40, 0x0B, 1, 0, &[])));
    assert!(!fits(known(16, 0x01, 1, 0, &[])));
    assert!(!fits(known(3, 0, 1, 0, &[])));
    // Opcodes: only when whole.
    assert!(!fits(known(7, 0x06, 0, 0, &[])));
    assert!(fits(known(8, 0x00, 0, 0, &[])));
    // Values: only of a register write, only bytes that have come.
    assert!(fits(known(16, 0x01, 0, 0, &[0xFF])));
    assert!(!fits(known(15, 0x01, 0, 0, &[0xFF])));
    assert!(!fits(known(16, 0x01, 0, 0, &[0xFF, 1])));
    assert!(fits(known(24, 0x87, 0, 0, &[0xFF, 1])));
    assert!(!fits(known(24, 0x87, 0, 0, &[0xFF, 1, 1])));
    assert!(fits(known(72, 0xC2, 0, 0, &[0xFF; 8])));
    assert!(fits(known(65_535, 0xC2, 0, 0, &[0xFF; 8])));
    assert!(!fits(known(71, 0xC2, 0, 0, &[0xFF; 8])));
    assert!(!fits(known(40, 0x02, 0, 0, &[1])));
    assert!(!fits(known(16, 0x05, 0, 0, &[1])));
    // Clocks.
    assert!(fits(known(65_535, 0x06, 0, 0, &[])));
    assert!(!fits(known(65_536, 0x06, 0, 0, &[])));
    assert!(!fits(known(u32::MAX, 0x06, 0, 0, &[])));
    // Asleep all but AB is rest.
    let asleep = |open: Open| {
        state_fits(
            part,
            &Record {
                asleep: true,
                open,
                ..m.record
            },
        )
    };
    assert!(!asleep(known(32, 0x02, 5, 0, &[])));
    assert!(asleep(known(32, 0x02, 0, 0, &[])));
    assert!(!asleep(known(16, 0x01, 0, 0, &[1])));
    // The registers are looked at as well.
    let bad = Record {
        open: known(0, 0, 0, 0, &[]),
        status: 0x80,
        ..m.record
    };
    assert!(!state_fits(part, &bad));
}

/// Feeds a transaction in these pieces and compares everything with the whole.
fn compare(chip: &Bench, samples: &[u8], ends: &[usize], by_facts: bool) {
    let mut whole = copy(chip);
    let mut output = vec![0; samples.len()];
    let told = transact(
        &mut whole.record,
        &mut whole.memory,
        &mut whole.area,
        samples,
        &mut output,
    );
    let mut fed = Fed::new(copy(chip), by_facts);
    assert_eq!(fed.open(), 0);
    let mut driven = Vec::new();
    let mut first = 0;
    for &end in ends.iter().chain([&samples.len()]) {
        let (answer, part) = fed.feed(&samples[first..end]);
        assert_eq!(answer, 0);
        driven.extend(part);
        first = end;
        // Registers change only at the close.
        let open = fed.facts();
        assert_eq!(open.clocks as usize, end);
        let closed = Record {
            open: Open::default(),
            ..fed.chip.record
        };
        assert_eq!(closed, chip.record);
        // Bytes are stored as soon as they are whole.
        let mut prefix = copy(chip);
        let mut room = vec![0; end];
        transact(
            &mut prefix.record,
            &mut prefix.memory,
            &mut prefix.area,
            &samples[..end],
            &mut room,
        );
        assert_eq!(fed.chip.memory, prefix.memory);
        assert_eq!(fed.chip.area, prefix.area);
    }
    let (answer, counts) = fed.close();
    assert_eq!((answer, counts), (told.0.number(), told.1));
    assert_eq!(driven, output);
    assert_eq!(fed.chip.record, whole.record);
    assert_eq!(fed.chip.memory, whole.memory);
    assert_eq!(fed.chip.area, whole.area);
}

fn any_chip(rng: &mut Rng, part: &Part) -> Bench {
    let mut chip = Bench::new(part.number, 10).marked();
    chip.record = Record {
        n: 10,
        ..valid_record(rng, part)
    };
    chip
}

#[test]
fn cuts_make_no_difference() {
    let mut rng = Rng::new(31);
    for round in 0..3000 {
        let part = PARTS[round % 3];
        let chip = any_chip(&mut rng, part);
        let opcode = if rng.chance(1, 10) {
            rng.byte()
        } else {
            rng.pick(&part.opcodes())
        };
        let plan = Plan::default();
        let mut samples = compose(&mut rng, part, &chip.record, opcode, &[], &plan);
        disturb(&mut rng, &mut samples);
        samples.iter_mut().for_each(|sample| *sample &= 15);
        let mut ends: Vec<usize> = (0..rng.below(12))
            .map(|_| rng.below(samples.len() + 1))
            .collect();
        ends.sort_unstable();
        compare(&chip, &samples, &ends, rng.chance(1, 2));
    }
}

#[test]
fn every_single_cut_and_clock_by_clock() {
    let mut rng = Rng::new(32);
    for part in PARTS {
        for &mode in part.modes() {
            for opcode in part.opcodes() {
                let mut chip = any_chip(&mut rng, part);
                chip.record.mode = mode;
                chip.record.latch = part.number != P;
                let plan = Plan {
                    bytes: Some(2),
                    ..Plan::sound()
                };
                let samples = compose(&mut rng, part, &chip.record, opcode, &[], &plan);
                for cut in 0..=samples.len() {
                    compare(&chip, &samples, &[cut], true);
                }
                let all: Vec<usize> = (1..samples.len()).collect();
                compare(&chip, &samples, &all, false);
                compare(&chip, &samples, &all, true);
            }
        }
    }
}

#[test]
fn a_byte_is_stored_when_its_last_clock_arrives() {
    let mut fed = Fed::new(Bench::m(), false);
    fed.chip.record.latch = true;
    fed.chip.record.configurations[3] = 0x04;
    let samples = on(1, &join(&[&[0x02], &at(0x10), &[0xA5, 0x5A]]));
    assert_eq!(fed.open(), 0);
    assert_eq!(fed.feed(&samples[..39]).0, 0);
    assert_eq!(fed.chip.memory[0x10..0x12], [0, 0]);
    assert_eq!(fed.feed(&samples[39..40]).0, 0);
    assert_eq!(fed.chip.memory[0x10..0x12], [0xA5, 0]);
    assert_eq!(fed.feed(&samples[40..47]).0, 0);
    // The latch drops at the close, and an unfinished byte is not stored.
    assert!(fed.chip.record.latch);
    assert_eq!(fed.close(), (0, five(8, 24, 0, 15, 0)));
    assert!(!fed.chip.record.latch);
    assert_eq!(fed.chip.memory[0x10..0x12], [0xA5, 0]);
    // The same in the area.
    fed.chip.record.latch = true;
    let samples = on(1, &join(&[&[0x42], &at(0x20), &[0x77]]));
    assert_eq!(fed.open(), 0);
    assert_eq!(fed.feed(&samples).0, 0);
    assert_eq!(fed.chip.area[0x20], 0x77);
    assert_eq!(fed.close().0, 0);
    // A register is written at the close.
    fed.chip.record.latch = true;
    assert_eq!(fed.open(), 0);
    assert_eq!(fed.feed(&on(1, &[0x01, 0x1C])).0, 0);
    assert_eq!(fed.chip.record.status, 0);
    assert_eq!(fed.close(), (0, five(8, 0, 0, 8, 0)));
    assert_eq!(fed.chip.record.status, 0x1C);
}

#[test]
fn a_read_is_driven_chunk_by_chunk() {
    let mut fed = Fed::new(Bench::p(), true);
    fed.chip.memory[0x155] = 0xC6;
    let samples = on(1, &join(&[&[0x03], &at(0x155), &[0xFF]]));
    assert_eq!(fed.open(), 0);
    assert_eq!(
        fed.feed(&samples[..34]),
        (0, {
            let mut expected = vec![0; 32];
            expected.extend(&out(1, &[0xC6])[..2]);
            expected
        })
    );
    assert_eq!(fed.feed(&[]), (0, vec![]));
    assert_eq!(fed.feed(&samples[34..]), (0, out(1, &[0xC6])[2..].to_vec()));
    assert_eq!(fed.close(), (0, five(8, 24, 0, 8, 0)));
}

#[test]
fn arming_comes_with_the_close() {
    let mut fed = Fed::new(Bench::m(), true);
    assert_eq!(fed.open(), 0);
    assert_eq!(fed.feed(&on(1, &[0x66])).0, 0);
    assert!(!fed.chip.record.armed);
    assert_eq!(fed.close(), (0, five(8, 0, 0, 0, 0)));
    assert!(fed.chip.record.armed);
    // Refused calls leave it so; an open and a close without a clock do not.
    assert_eq!(fed.close(), (13, NOTHING));
    assert!(fed.chip.record.armed);
    assert_eq!(fed.open(), 0);
    assert!(fed.chip.record.armed);
    assert_eq!(fed.open(), 13);
    assert_eq!(fed.close(), (4, NOTHING));
    assert!(!fed.chip.record.armed);
}

/// A call with everything it is given, by number: 1 transaction, 2 power cycle,
/// 3 open, 4 feed, 5 close.
fn answer_to(
    call: u8,
    record: Record,
    memory: usize,
    area: usize,
    chunk: &[u8],
    room: usize,
) -> u8 {
    let mut after = record;
    let (mut lent, mut lent_area) = (vec![7; memory], vec![9; area]);
    let mut output = vec![0xA5; room];
    let mut kept = None;
    let (answer, counts) = match call {
        1 => transact(&mut after, &mut lent, &mut lent_area, chunk, &mut output),
        2 => power_cycle(&mut after, &mut lent, &mut lent_area),
        3 => open(&mut after, &lent, &lent_area, &mut kept),
        4 => feed(
            &mut after,
            &mut lent,
            &mut lent_area,
            &mut kept,
            chunk,
            &mut output,
        ),
        _ => close(&mut after, &mut lent, &mut lent_area, &mut kept),
    };
    if answer.class() == Class::Refused {
        assert_eq!((after, counts), (record, NOTHING));
        assert!(lent.iter().all(|&byte| byte == 7));
        assert!(lent_area.iter().all(|&byte| byte == 9));
        assert!(output.iter().all(|&byte| byte == 0xA5));
    }
    answer.number()
}

#[test]
fn order_of_the_checks() {
    let closed = Bench::m().record;
    let opened = Record {
        open: known(8, 0x06, 0, 0, &[]),
        ..closed
    };
    for call in 1..=5 {
        let wants_open = call >= 4;
        let looks = call == 1 || call == 4;
        let (right, wrong) = if wants_open {
            (opened, closed)
        } else {
            (closed, opened)
        };
        let bad_register = |record: Record| Record { mode: 3, ..record };
        let bad_facts = |mut record: Record| {
            record.open.number = 1;
            record
        };
        let good_chunk: &[u8] = &[0, 1];
        let bad_chunk: &[u8] = &[0, 16];
        let second = if looks { 2 } else { 3 };
        for bad in [bad_register(right), bad_facts(right)] {
            assert_eq!(answer_to(call, bad, 1024, 256, good_chunk, 2), 3);
            assert_eq!(answer_to(call, bad, 1024, 256, bad_chunk, 2), second);
            assert_eq!(answer_to(call, bad, 1023, 256, bad_chunk, 2), 1);
        }
        for bad in [bad_register(wrong), bad_facts(wrong)] {
            assert_eq!(answer_to(call, bad, 1024, 256, good_chunk, 2), 3);
            assert_eq!(answer_to(call, bad, 1024, 256, bad_chunk, 2), second);
        }
        assert_eq!(answer_to(call, wrong, 1024, 256, good_chunk, 2), 13);
        let second = if looks { 2 } else { 13 };
        assert_eq!(answer_to(call, wrong, 1024, 256, bad_chunk, 2), second);
        for (memory, area) in [(1023, 256), (1025, 256), (1024, 255), (1024, 257)] {
            assert_eq!(answer_to(call, wrong, memory, area, bad_chunk, 2), 1);
            assert_eq!(answer_to(call, right, memory, area, good_chunk, 2), 1);
        }
        for part in [0, 4] {
            let record = Record { part, ..wrong };
            assert_eq!(answer_to(call, record, 1024, 256, bad_chunk, 2), 1);
        }
        let record = Record { n: 9, ..wrong };
        assert_eq!(answer_to(call, record, 512, 256, bad_chunk, 2), 1);
        // Only transaction and feed look at the output.
        let short = if looks { 1 } else { 13 };
        assert_eq!(answer_to(call, wrong, 1024, 256, good_chunk, 1), short);
        let good = answer_to(call, right, 1024, 256, good_chunk, 2);
        assert_eq!(good, if call == 1 { 4 } else { 0 });
    }
}

/// All chunks count together, by what the record states, whatever else is in it.
#[test]
fn clocks_of_all_chunks_together() {
    let closed = Bench::m().record;
    let stated = |clocks: u32| Record {
        open: known(clocks, 0x06, 0, 0, &[]),
        ..closed
    };
    let feed = |record: Record, clocks: usize| {
        let chunk = vec![0; clocks];
        answer_to(4, record, 1024, 256, &chunk, clocks)
    };
    assert_eq!(feed(stated(65_535), 0), 0);
    assert_eq!(feed(stated(65_535), 1), 1);
    assert_eq!(feed(stated(65_000), 535), 0);
    assert_eq!(feed(stated(65_000), 536), 1);
    assert_eq!(feed(stated(0xFFFF_FFFF), 1), 1);
    assert_eq!(feed(stated(0xFFFF_FFFF), 0), 1);
    assert_eq!(feed(stated(0xFFFF_0000), 65_536), 1);
    // Too many clocks are 3 for a call that does not count them.
    assert_eq!(answer_to(5, stated(65_536), 1024, 256, &[], 0), 3);
    assert_eq!(answer_to(3, stated(65_536), 1024, 256, &[], 0), 3);
    assert_eq!(answer_to(1, stated(65_535), 1024, 256, &[0; 9], 9), 13);
    // With none open only the chunk counts, even if the record states clocks.
    let mut none = stated(65_535);
    none.open.flag = false;
    assert_eq!(feed(none, 1), 3);
    assert_eq!(feed(closed, 65_535), 13);
    assert_eq!(feed(closed, 65_536), 1);
    // A damaged record counts all the same.
    let mut damaged = stated(65_535);
    damaged.open.number = 5;
    assert_eq!(feed(damaged, 1), 1);
    assert_eq!(feed(damaged, 0), 3);
}

#[test]
fn the_most_clocks_by_chunks() {
    for part in [M, P, M32] {
        let mut fed = Fed::new(Bench::new(part, 10).marked(), false);
        fed.chip.record.latch = part != P;
        let mut samples = on(1, &join(&[&[0x02], &at(0x3FE)]));
        samples.extend((0..65_535 - 32).map(|i| (i % 16) as u8));
        let mut whole = copy(&fed.chip);
        assert_eq!(fed.open(), 0);
        for chunk in samples.chunks(9_000) {
            assert_eq!(fed.feed(chunk).0, 0);
        }
        assert_eq!(fed.facts().clocks, 65_535);
        assert_eq!(fed.feed(&[0]).0, 1);
        assert_eq!(fed.feed(&[]).0, 0);
        assert_eq!(fed.close(), whole.full(&samples));
        assert_eq!(fed.chip.memory, whole.memory);
        assert_eq!(fed.chip.record, whole.record);
    }
}

/// Refused calls in the middle leave the transaction open and as it was.
#[test]
fn refusals_among_the_chunks() {
    for by_facts in [false, true] {
        let mut fed = Fed::new(Bench::m().marked(), by_facts);
        fed.chip.record.latch = true;
        let samples = on(1, &join(&[&[0x02], &at(0x3FF), &[0x11, 0x22, 0x33]]));
        let mut whole = copy(&fed.chip);
        assert_eq!(fed.feed(&[0]).0, 13);
        assert_eq!(fed.close(), (13, NOTHING));
        assert_eq!(fed.open(), 0);
        for chunk in samples.chunks(5) {
            let before = (fed.chip.record, fed.chip.memory.clone());
            let mut bad = chunk.to_vec();
            *bad.last_mut().unwrap() = 16;
            assert_eq!(fed.feed(&bad).0, 2);
            assert_eq!(fed.open(), 13);
            assert_eq!(fed.chip.send(&on(1, &[0x06])), 13);
            assert_eq!(fed.chip.cycle(), 13);
            let last = fed.chip.memory.pop();
            assert_eq!(fed.feed(chunk).0, 1);
            fed.chip.memory.extend(last);
            let mut output = vec![0xA5; chunk.len() - 1];
            let (answer, _) = feed(
                &mut fed.chip.record,
                &mut fed.chip.memory,
                &mut fed.chip.area,
                &mut fed.kept,
                chunk,
                &mut output,
            );
            assert_eq!(answer, Answer::Size);
            assert_eq!(before, (fed.chip.record, fed.chip.memory.clone()));
            assert_eq!(fed.feed(chunk).0, 0);
        }
        assert_eq!(fed.close(), whole.full(&samples));
        assert_eq!(fed.chip.memory, whole.memory);
        assert_eq!(fed.chip.record, whole.record);
        assert_eq!(fed.feed(&[0]).0, 13);
    }
}
