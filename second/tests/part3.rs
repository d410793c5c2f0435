//! Part 3, the MRAM of 32 Mbit (document 02, P4): its own limits, and all else as
//! for part 1, whose limits stay.

mod common;
use common::*;
use second::answer::{Answer, Counts};
use second::compact::{compact_text, digest};
use second::device::{fresh, power_cycle, transact, Record};
use second::host::build;
use second::parts;
use second::tape::bench;

/// The answer of a call with these sizes, to a write enable.
fn sized(record: Record, memory_bytes: usize, area_bytes: usize) -> u8 {
    let mut memory = vec![0x11; memory_bytes];
    let mut area = vec![0x22; area_bytes];
    let mut output = [0x33; 8];
    let mut after = record;
    let cycle = power_cycle(&mut after.clone(), &mut memory, &mut area).0;
    let samples = on(1, &[0x06]);
    let (answer, counts) = transact(&mut after, &mut memory, &mut area, &samples, &mut output);
    assert_eq!(answer == Answer::Size, cycle == Answer::Size);
    if answer == Answer::Size {
        assert_eq!((after, counts), (record, Counts::default()));
        assert_eq!(output, [0x33; 8]);
    }
    answer.number()
}

#[test]
fn sizes() {
    let (m, m32) = (Bench::m().record, Bench::m32().record);
    for area in [0, 1, 255, 256, 257, 511, 512, 513] {
        assert_eq!(sized(m, 1024, area), if area == 256 { 0 } else { 1 });
        assert_eq!(sized(m32, 1024, area), if area == 512 { 0 } else { 1 });
    }
    for memory in [1023, 1025, 2048] {
        assert_eq!(sized(m32, memory, 512), 1);
    }
    for n in 0..=255u8 {
        let memory = if n <= 23 { 1usize << n } else { 1024 };
        let fits = |most: u8| (10..=most).contains(&n);
        let m = Record { n, ..m };
        assert_eq!(sized(m, memory, 256), if fits(21) { 0 } else { 1 });
        let m32 = Record { n, ..m32 };
        assert_eq!(sized(m32, memory, 512), if fits(22) { 0 } else { 1 });
    }
}

#[test]
fn no_part_4() {
    for part in [0, 4, 255] {
        for (record, area) in [(Bench::m().record, 256), (Bench::m32().record, 512)] {
            assert_eq!(sized(Record { part, ..record }, 1024, area), 1);
        }
        let mut room = [0; 8];
        let told = build(u32::from(part), 0x06, 1, 0, 0, &[], 0, &mut room);
        assert_eq!(told, (Answer::Unknown, 0));
        assert!(bench(&[2, 0, 3, 0, part, 10]).ends_with("\nbad 0\n"));
    }
    let mut room = [9; 8];
    let told = build(3, 0x06, 1, 0, 0, &[], 0, &mut room);
    assert_eq!(told, (Answer::Done, 8));
    assert_eq!(room[..], on(1, &[0x06]));
}

#[test]
fn fresh_is_as_for_part_1() {
    let (identity, unique) = ([1, 2, 3, 4, 0, 0, 0, 0], [9; 8]);
    let m = fresh(&parts::M, 17, identity, unique);
    let m32 = fresh(&parts::M32, 17, identity, unique);
    assert_eq!(m32, Record { part: 3, ..m });
    // Of the identity there are four bytes.
    let mut chip = Bench::m32();
    assert_eq!(chip.say_and(&[0x9F], 40), 0);
    assert_eq!(chip.driven(), out(1, &chip.record.identity[..4]));
    chip.record.identity[4] = 1;
    assert_eq!(chip.say(&[0x9F]), 3);
}

/// Every opcode in every mode, with the latch up or down, in every write mode, asleep
/// or awake: what does not touch a limit is as for part 1.
#[test]
fn all_else_is_as_for_part_1() {
    for opcode in 0..=255u8 {
        for (mode, write_mode, flags) in (0..36u8).map(|i| (1 << (i % 3), i / 3 % 3, i / 9)) {
            for bytes in [0usize, 1, 3, 4, 8, 9, 12] {
                let run = |part: u8| {
                    let mut chip = Bench::new(part, 10).marked();
                    chip.record.mode = mode;
                    chip.record.latch = flags & 1 == 1;
                    chip.record.armed = flags & 1 == 1;
                    chip.record.asleep = flags == 2;
                    chip.record.status = flags << 3;
                    chip.record.configurations = [0, 3, 0x12, 0x04 | write_mode];
                    // Allowed values, and address 4 for what has one.
                    let data = [0, 0, 4, 5, 0, 0, 0, 0, 7, 8, 9, 10];
                    let samples = join(&[&on(mode, &[opcode]), &on(mode, &data[..bytes])]);
                    let answer = chip.full(&samples);
                    let record = Record {
                        part: 0,
                        ..chip.record
                    };
                    let area = chip.area[..256].to_vec();
                    (answer, record, chip.memory, area, chip.output)
                };
                assert_eq!(run(M), run(M32), "{opcode:02X} in mode {mode}");
            }
        }
    }
}

#[test]
fn wrap_codes_written() {
    for part in MRAMS {
        let codes = if part == M { 5 } else { 7 };
        for value in 0..=255u8 {
            let mut chip = Bench::new(part, 10);
            let fits = value & 8 == 0 && value % 8 < codes;
            let answer = chip.set(0x87, &[0, 0x0F, value, 0x06]);
            assert_eq!(answer, if fits { 0 } else { 10 }, "{value:02X} on {part}");
            let stored = if fits {
                [0, 15, value, 6]
            } else {
                [0, 8, 0, 5]
            };
            assert_eq!(chip.record.configurations, stored);
            // Done drops the latch, declined keeps it.
            assert_eq!(chip.record.latch, !fits);
        }
    }
}

#[test]
fn wrap_codes_in_a_record() {
    for part in MRAMS {
        let codes = if part == M { 5 } else { 7 };
        for value in 0..=255u8 {
            let mut chip = Bench::new(part, 10);
            chip.record.configurations[2] = value;
            let fits = value & 8 == 0 && value % 8 < codes;
            assert_eq!(chip.send(&[]), if fits { 4 } else { 3 });
            assert_eq!(chip.cycle(), if fits { 0 } else { 3 });
        }
    }
}

#[test]
fn wrapping_in_every_group() {
    for code in 0..7u8 {
        let group = 16usize << code;
        let mut chip = Bench::new(M32, 12).marked();
        chip.record.configurations[2] = 0x10 | code;
        for start in [0x800, 0x800 + group / 2, 0x800 + group - 2] {
            assert_eq!(chip.write(0x03, start as u32, &vec![0; group + 3]), 0);
            let expected: Vec<u8> = (0..group + 3)
                .map(|i| chip.memory[0x800 + (start - 0x800 + i) % group])
                .collect();
            assert_eq!(chip.driven(), out(1, &expected), "{start:X} in {group}");
        }
        // Not without the bit.
        chip.record.configurations[2] = code;
        let start = 0x800 + group - 2;
        assert_eq!(chip.write(0x03, start as u32, &[0; 4]), 0);
        assert_eq!(chip.driven(), out(1, &chip.memory[start..start + 4]));
        // And no write.
        chip.record.configurations[2] = 0x10 | code;
        assert_eq!(chip.write(0x02, start as u32, &[1, 2, 3, 4]), 0);
        assert_eq!(chip.memory[start..start + 4], [1, 2, 3, 4]);
    }
    // In the smallest memory the longest group is all of it.
    let mut chip = Bench::m32().marked();
    chip.record.configurations[2] = 0x16;
    assert_eq!(chip.write(0x03, 0x3FE, &[0; 4]), 0);
    let expected = [0x3FE, 0x3FF, 0, 1].map(|place| chip.memory[place]);
    assert_eq!(chip.driven(), out(1, &expected));
}

#[test]
fn the_area_returns_to_0_past_its_end() {
    let mut chip = Bench::m32().marked();
    // No wrap code has a say, however short its group.
    chip.record.configurations[1] = 0;
    chip.record.configurations[2] = 0x10;
    assert_eq!(chip.write(0x4B, 0x1FE, &[0; 20]), 0);
    let expected: Vec<u8> = (0..20).map(|i| chip.area[(0x1FE + i) % 512]).collect();
    assert_eq!(chip.driven(), out(1, &expected));
    // The upper half is no shadow of the lower one.
    assert_eq!(chip.write(0x4B, 0x0FE, &[0; 4]), 0);
    assert_eq!(chip.driven(), out(1, &chip.area[0x0FE..0x102]));
    assert_ne!(chip.area[0x100..0x102], chip.area[..2]);
    let kept = chip.area.clone();
    assert_eq!(chip.write(0x42, 0x1FE, &[1, 2, 3, 4]), 0);
    assert_eq!(chip.area[0x1FE..], [1, 2]);
    assert_eq!(chip.area[..2], [3, 4]);
    assert_eq!(chip.area[2..0x1FE], kept[2..0x1FE]);
    // A burst may lap it.
    let data: Vec<u8> = (0..520u32).map(|i| (i / 3) as u8 + 1).collect();
    assert_eq!(chip.write(0x42, 0x10, &data), 0);
    for (i, &byte) in data.iter().enumerate().skip(8) {
        assert_eq!(chip.area[(0x10 + i) % 512], byte);
    }
}

#[test]
fn addresses_of_the_area() {
    for (part, bytes) in [(M, 256u32), (M32, 512)] {
        let mut chip = Bench::new(part, 10);
        for opcode in [0x42, 0x4B] {
            assert_eq!(chip.write(opcode, bytes - 1, &[7]), 0);
            for address in [bytes, bytes + 1, 2 * bytes, 0x80_0000] {
                let samples = on(1, &join(&[&[opcode], &at(address), &[7]]));
                assert_eq!(chip.full(&samples), (7, five(8, 24, 0, 0, 8)));
            }
        }
        assert_eq!(chip.area[bytes as usize - 1], 7);
        assert_eq!(chip.area.iter().filter(|&&byte| byte == 7).count(), 1);
    }
}

#[test]
fn sections_of_64() {
    for bits in [0x00, 0x01, 0x80, 0x5A, 0xA5, 0x0F, 0xFF] {
        let mut chip = Bench::m32();
        chip.record.area_protection = bits;
        for place in 0..512u32 {
            let safe = bits >> (place / 64) & 1 == 1;
            assert_eq!(chip.write(0x42, place, &[1]), if safe { 9 } else { 0 });
            assert_eq!(chip.area[place as usize], u8::from(!safe));
        }
    }
    // A burst over the edge between two sections, and over the middle of one.
    let mut chip = Bench::m32();
    chip.record.area_protection = 0x02;
    assert_eq!(chip.write(0x42, 0x3E, &[1, 2, 3, 4]), 0);
    assert_eq!(chip.area[0x3E..0x42], [1, 2, 0, 0]);
    assert_eq!(chip.write(0x42, 0x7E, &[1, 2, 3, 4]), 0);
    assert_eq!(chip.area[0x7E..0x82], [0, 0, 3, 4]);
    assert_eq!(chip.write(0x42, 0x1E, &[1, 2, 3, 4]), 0);
    assert_eq!(chip.area[0x1E..0x22], [1, 2, 3, 4]);
    assert_eq!(chip.write(0x42, 0x5E, &[1, 2, 3, 4]), 9);
    assert_eq!(chip.area[0x5E..0x62], [0; 4]);
    // From the last section on to the first.
    chip.record.area_protection = 0x80;
    assert_eq!(chip.write(0x42, 0x1FE, &[1, 2, 3, 4]), 0);
    assert_eq!((chip.area[0x1FE], chip.area[0x1FF]), (0, 0));
    assert_eq!(chip.area[..2], [3, 4]);
}

#[test]
fn register_map() {
    for part in MRAMS {
        let mut chip = Bench::new(part, 10);
        chip.record.status = 0x38;
        chip.record.configurations = [0, 7, 0xF4, 6];
        chip.record.serial = [0x11, 0x22, 0x33, 0x44, 0x55, 0x66, 0x77, 0x88];
        let mut map: Vec<(u32, Vec<u8>)> = vec![
            (0x00, vec![0x38]),
            (0x02, vec![0]),
            (0x03, vec![7]),
            (0x04, vec![0xF4]),
            (0x05, vec![6]),
            (0x30, chip.record.identity[..4].to_vec()),
            (0x40, chip.record.unique.to_vec()),
        ];
        if part == M32 {
            map.push((0x80, chip.record.serial.to_vec()));
        }
        for mode in [1u8, 2, 4] {
            chip.record.mode = mode;
            let [command, address, wait, byte] = [8, 24, 8, 8].map(|bits| bits / u32::from(mode));
            for place in 0..0x200u32 {
                let samples = join(&[&on(mode, &join(&[&[0x65], &at(place)])), &[0; 8 + 70]]);
                let left = 78 - wait;
                let (answer, counts) = chip.full(&samples);
                match map.iter().find(|(known, _)| *known == place) {
                    Some((_, bytes)) => {
                        let data = bytes.len() as u32 * byte;
                        let expected = five(command, address, wait, data, left - data);
                        assert_eq!((answer, counts), (0, expected));
                        assert_eq!(chip.driven(), out(mode, bytes));
                    }
                    None => assert_eq!((answer, counts), (7, five(command, address, 0, 0, 78))),
                }
            }
            // All 24 bits count.
            for bit in 8..24 {
                assert_eq!(chip.write(0x65, 1 << bit | 0x80, &[0, 0]), 7);
            }
        }
    }
}

#[test]
fn the_largest_memory() {
    let mut chip = Bench::new(M32, 22).marked();
    assert_eq!(chip.memory.len(), 4_194_304);
    // Over the top and on at 0.
    let expected = [0x3F_FFFF, 0, 1].map(|place| chip.memory[place]);
    assert_eq!(chip.write(0x03, 0x3F_FFFF, &[0; 3]), 0);
    assert_eq!(chip.driven(), out(1, &expected));
    assert_eq!(chip.write(0x02, 0x3F_FFFE, &[1, 2, 3]), 0);
    assert_eq!(chip.memory[0x3F_FFFE..], [1, 2]);
    assert_eq!(chip.memory[0], 3);
    assert_eq!(chip.write(0x02, 0x20_0000, &[4]), 0);
    assert_eq!(chip.memory[0x20_0000], 4);
    for address in [0x40_0000, 0x7F_FFFF, 0x80_0000, 0xFF_FFFF] {
        assert_eq!(chip.write(0x03, address, &[0]), 7);
        assert_eq!(chip.write(0x02, address, &[0]), 7);
    }
    // Part 1 has no such address in its largest memory.
    let mut chip = Bench::new(M, 21);
    assert_eq!(chip.write(0x02, 0x1F_FFFF, &[1]), 0);
    assert_eq!(chip.write(0x02, 0x20_0000, &[1]), 7);
}

#[test]
fn shares_of_the_largest_memory() {
    let mut chip = Bench::new(M32, 22);
    for code in 1..7u8 {
        let share = 0x40_0000 >> (7 - code);
        for (status, border) in [(code << 2, 0x40_0000 - share), (code << 2 | 0x20, share)] {
            chip.record.status = status;
            let below_is_safe = status & 0x20 != 0;
            let place = border as usize;
            chip.memory[place - 1..=place].fill(0);
            let answers = [
                chip.write(0x02, border - 1, &[1]),
                chip.write(0x02, border, &[1]),
            ];
            assert_eq!(answers, if below_is_safe { [9, 0] } else { [0, 9] });
            assert_eq!(chip.write(0x02, border - 1, &[5, 5]), 0);
            let stored = if below_is_safe { [0, 5] } else { [5, 0] };
            assert_eq!(chip.memory[place - 1..=place], stored);
        }
    }
    for status in [0x1C, 0x3C] {
        chip.record.status = status;
        assert_eq!(chip.write(0x02, 0x1F_FFFF, &[1, 1]), 9);
    }
    for status in [0x00, 0x20] {
        chip.record.status = status;
        assert_eq!(chip.write(0x02, 0x1F_FFFF, &[1, 1]), 0);
    }
}

/// One record of a tape.
fn record(kind: u8, payload: &[u8]) -> Vec<u8> {
    join(&[&(payload.len() as u16).to_le_bytes(), &[kind, 0], payload])
}

#[test]
fn on_a_tape() {
    for n in 0..=255u8 {
        let good = (10..=15).contains(&n);
        let expected = if good { "\nend 1\n" } else { "\nbad 0\n" };
        assert!(bench(&record(3, &[3, n])).ends_with(expected));
    }
    let tape = join(&[
        &record(3, &[3, 11]),
        &record(1, &on(1, &[0x42, 0, 1, 0xFF, 5, 6])),
        &record(1, &on(1, &[0x42, 0, 2, 0, 5])),
        &record(2, &[]),
    ]);
    let text = compact_text(&join(&[&(tape.len() as u32).to_le_bytes(), &tape]));
    let rows: Vec<&str> = text.lines().collect();
    let mut area = [0; 512];
    area[511] = 5;
    area[0] = 6;
    let memory = format!("{:08X}", digest(&[0; 2048]));
    let area = format!("{:08X}", digest(&area));
    let chip = format!("M32 11 1 0000 00000008000500 0000000000000000 {memory} {area}");
    let output = |clocks: usize| {
        let bytes = join(&[&vec![0; clocks], &[0xA5; 3]]);
        format!("{:08X}", digest(&bytes))
    };
    assert_eq!(
        rows[2],
        format!("2 0 8 24 0 16 0 {chip} {} - -", output(48))
    );
    assert_eq!(rows[3], format!("3 7 8 24 0 0 8 {chip} {} - -", output(40)));
    assert_eq!(rows[4], format!("4 0 0 0 0 0 0 {chip} - - -"));
    assert_eq!(rows[5], "end 4");
}
