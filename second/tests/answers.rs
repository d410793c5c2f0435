//! Every row of the answer table, its boundary, and the order between rows.

mod common;
use common::*;
use second::answer::{Answer, Class, Counts};
use second::device::{power_cycle, transact, Record};

/// Calls with everything given apart and tells what changed.
fn call(
    record: Record,
    memory_bytes: usize,
    area_bytes: usize,
    samples: &[u8],
    output_bytes: usize,
) -> (u8, bool) {
    let mut after = record;
    let mut memory = vec![0x11; memory_bytes];
    let mut area = vec![0x22; area_bytes];
    let mut output = vec![0x33; output_bytes];
    let (answer, counts) = transact(&mut after, &mut memory, &mut area, samples, &mut output);
    let unchanged = after == record
        && memory.iter().all(|&byte| byte == 0x11)
        && area.iter().all(|&byte| byte == 0x22)
        && output.iter().all(|&byte| byte == 0x33)
        && counts == Counts::default();
    (answer.number(), unchanged)
}

/// The paper's numbers, and which answers leave what.
#[test]
fn numbers_and_classes() {
    let answers = [
        Answer::Done,
        Answer::Size,
        Answer::Sample,
        Answer::State,
        Answer::Short,
        Answer::Unknown,
        Answer::Asleep,
        Answer::Address,
        Answer::Latch,
        Answer::Protected,
        Answer::Reserved,
        Answer::Long,
        Answer::Unarmed,
    ];
    for (number, answer) in answers.into_iter().enumerate() {
        assert_eq!(usize::from(answer.number()), number);
        assert_eq!(answer.to_string(), number.to_string());
        let class = match number {
            0 => Class::Done,
            1..=3 => Class::Refused,
            _ => Class::Declined,
        };
        assert_eq!(answer.class(), class);
    }
}

#[test]
fn row_1_size() {
    let m = Bench::m().record;
    let p = Bench::p().record;
    let enable = on(1, &[0x06]);
    assert_eq!(call(m, 1024, 256, &enable, 8).0, 0);
    for (memory, area, output) in [
        (1023, 256, 8),
        (1025, 256, 8),
        (0, 256, 8),
        (2048, 256, 8),
        (1024, 255, 8),
        (1024, 257, 8),
        (1024, 0, 8),
        (1024, 256, 7),
        (1024, 256, 0),
    ] {
        assert_eq!(call(m, memory, area, &enable, output), (1, true));
    }
    assert_eq!(call(p, 1024, 0, &enable, 8).0, 5);
    assert_eq!(call(p, 1024, 1, &enable, 8), (1, true));
    assert_eq!(call(p, 1024, 256, &enable, 8), (1, true));
    for part in [0, 4, 5, 255] {
        assert_eq!(call(Record { part, ..m }, 1024, 256, &enable, 8), (1, true));
        assert_eq!(call(Record { part, ..p }, 1024, 0, &enable, 8), (1, true));
    }
    for n in 0..=255u8 {
        let fits = (10..=21).contains(&n);
        let memory = if n <= 22 { 1usize << n } else { 1024 };
        let answer = call(Record { n, ..m }, memory, 256, &enable, 8);
        assert_eq!(answer.0, if fits { 0 } else { 1 }, "n {n}");
        assert!(fits || answer.1);
    }
}

#[test]
fn row_1_clocks() {
    let m = Bench::m().record;
    let mut samples = on(1, &[0x03, 0, 0, 0]);
    samples.resize(65_535, 0);
    assert_eq!(call(m, 1024, 256, &samples, 65_535).0, 0);
    samples.push(0);
    assert_eq!(call(m, 1024, 256, &samples, 65_536), (1, true));
    // 1 comes before 2.
    samples[9] = 16;
    assert_eq!(call(m, 1024, 256, &samples, 65_536), (1, true));
    assert_eq!(call(m, 1024, 256, &samples[..65_535], 65_535), (2, true));
}

#[test]
fn row_2_sample() {
    let m = Bench::m().record;
    for bad in [16, 17, 32, 128, 255] {
        for place in 0..12 {
            let mut samples = vec![0; 12];
            samples[place] = bad;
            assert_eq!(call(m, 1024, 256, &samples, 12), (2, true));
        }
    }
    assert_eq!(call(m, 1024, 256, &[15; 12], 12).0, 5);
    // 1 before 2, 2 before 3.
    assert_eq!(call(m, 1024, 256, &[16; 12], 11), (1, true));
    let bad_mode = Record { mode: 3, ..m };
    assert_eq!(call(bad_mode, 1024, 256, &[16], 1), (2, true));
    assert_eq!(call(bad_mode, 1024, 256, &[15], 1), (3, true));
    assert_eq!(call(bad_mode, 1024, 256, &[], 0), (3, true));
}

#[test]
fn row_3_state_of_m() {
    let m = Bench::m().record;
    let allowed = |record: Record| {
        let answer = call(record, 1024, 256, &[], 0);
        let mut after = record;
        let cycle = power_cycle(&mut after, &mut [0; 1024], &mut [0; 256]);
        assert!(answer == (3, true) || answer.0 == 4);
        assert_eq!(cycle.0 == Answer::State, answer.0 == 3);
        assert!(cycle.0 == Answer::Done || after == record);
        answer.0 == 4
    };
    for value in 0..=255u8 {
        let with = |place: usize| {
            let mut record = m;
            record.configurations[place] = value;
            record
        };
        assert_eq!(
            allowed(Record { mode: value, ..m }),
            [1, 2, 4].contains(&value)
        );
        let status = Record { status: value, ..m };
        assert_eq!(allowed(status), value & 0b1100_0011 == 0);
        let area = Record {
            area_protection: value,
            ..m
        };
        assert!(allowed(area));
        assert_eq!(allowed(with(0)), value == 0);
        assert_eq!(allowed(with(1)), value < 16);
        assert_eq!(allowed(with(2)), value & 8 == 0 && value % 8 < 5);
        assert_eq!(allowed(with(3)), [4, 5, 6].contains(&value));
        assert_eq!(allowed(Record { mr0: value, ..m }), value == 0);
        for place in 0..8 {
            let mut record = m;
            record.identity[place] = value;
            assert_eq!(allowed(record), place < 4 || value == 0);
            record.identity = m.identity;
            record.unique[place] = value;
            record.serial[place] = value;
            assert!(allowed(record));
        }
    }
    assert!(!allowed(Record { toggle: true, ..m }));
    let flags = Record {
        latch: true,
        armed: true,
        asleep: true,
        ..m
    };
    assert!(allowed(flags));
}

#[test]
fn row_3_state_of_p() {
    let p = Bench::p().record;
    let allowed = |record: Record| {
        let answer = call(record, 1024, 0, &[], 0);
        let mut after = record;
        let cycle = power_cycle(&mut after, &mut [0; 1024], &mut []);
        assert!(answer == (3, true) || answer.0 == 4);
        assert_eq!(cycle.0 == Answer::State, answer.0 == 3);
        answer.0 == 4
    };
    for value in 0..=255u8 {
        assert_eq!(
            allowed(Record { mode: value, ..p }),
            [1, 4].contains(&value)
        );
        let mr0 = value & 0b1001_1100 == 0 && value % 4 != 3;
        assert_eq!(allowed(Record { mr0: value, ..p }), mr0);
        assert_eq!(allowed(Record { status: value, ..p }), value == 0);
        let area = Record {
            area_protection: value,
            ..p
        };
        assert_eq!(allowed(area), value == 0);
        for place in 0..8 {
            let mut record = p;
            record.configurations[place % 4] = value;
            assert_eq!(allowed(record), value == 0);
            let mut record = p;
            record.serial[place] = value;
            assert_eq!(allowed(record), value == 0);
            let mut record = p;
            record.unique[place] = value;
            assert_eq!(allowed(record), value == 0);
            let mut record = p;
            record.identity[place] = value;
            assert!(allowed(record));
        }
    }
    assert!(!allowed(Record { latch: true, ..p }));
    assert!(!allowed(Record { asleep: true, ..p }));
    assert!(allowed(Record {
        armed: true,
        toggle: true,
        ..p
    }));
}

#[test]
fn row_4_command_bits() {
    for (mode, clocks) in [(1, 8), (2, 4), (4, 2)] {
        for short in 0..clocks {
            let mut chip = Bench::m();
            chip.record.mode = mode;
            let samples = &on(mode, &[0x06])[..short as usize];
            assert_eq!(chip.full(samples), (4, five(short, 0, 0, 0, 0)));
            assert!(!chip.record.latch);
        }
    }
}

#[test]
fn row_6_asleep() {
    for mode in [1, 2, 4] {
        for opcode in 0..=255u8 {
            let mut chip = Bench::m();
            chip.record.mode = mode;
            chip.record.asleep = true;
            chip.record.armed = true;
            chip.record.latch = true;
            let before = chip.record;
            let (answer, counts) = chip.full(&join(&[&on(mode, &[opcode]), &[0; 5]]));
            let command = u32::from(8 / mode);
            assert_eq!(counts, five(command, 0, 0, 0, 5));
            // AB with clocks after it is 11; all else is 6, known or not.
            assert_eq!(answer, if opcode == 0xAB { 11 } else { 6 });
            assert_eq!(
                chip.record,
                Record {
                    armed: false,
                    ..before
                }
            );
        }
    }
}

#[test]
fn row_5_unknown_opcodes_of_m() {
    let in_all = [
        0x00, 0x06, 0x04, 0xB9, 0xAB, 0x66, 0x99, 0x05, 0x14, 0x35, 0x3F, 0x44, 0x45, 0x46, 0x9F,
        0x4C, 0xC3, 0x65, 0x01, 0x87, 0xC2, 0x1A, 0x02,
    ];
    for mode in [1u8, 2, 4] {
        for opcode in 0..=255u8 {
            let known = in_all.contains(&opcode)
                || match opcode {
                    0x37 => mode != 2,
                    0x38 => mode != 4,
                    0xFF => mode != 1,
                    0x03 | 0x4B | 0x42 => mode == 1,
                    _ => false,
                };
            let mut chip = Bench::m();
            chip.record.mode = mode;
            let (answer, counts) = chip.full(&join(&[&on(mode, &[opcode]), &[0; 3]]));
            assert_eq!(answer != 5, known, "{opcode:02X} in mode {mode}");
            if !known {
                assert_eq!(counts, five(u32::from(8 / mode), 0, 0, 0, 3));
            }
        }
    }
}

#[test]
fn row_5_unknown_opcodes_of_p() {
    let in_both = [
        0x0B, 0xEB, 0x8B, 0x02, 0x82, 0x38, 0xB5, 0xB1, 0x66, 0x99, 0xC0,
    ];
    for mode in [1u8, 4] {
        for opcode in 0..=255u8 {
            let known = in_both.contains(&opcode)
                || match opcode {
                    0x03 | 0x9F | 0x35 => mode == 1,
                    0xF5 => mode == 4,
                    _ => false,
                };
            let mut chip = Bench::p();
            chip.record.mode = mode;
            let answer = chip.send(&join(&[&on(mode, &[opcode]), &[0; 3]]));
            assert_eq!(answer != 5, known, "{opcode:02X} in mode {mode}");
        }
    }
}

#[test]
fn row_4_address() {
    for (mode, clocks) in [(1u8, 24u32), (2, 12), (4, 6)] {
        for short in 0..clocks {
            for opcode in [0x65, 0x02] {
                let mut chip = Bench::m();
                chip.record.mode = mode;
                // All ones: it would be a bad address if it were whole.
                let samples = join(&[&on(mode, &[opcode]), &vec![15; short as usize]]);
                let command = u32::from(8 / mode);
                assert_eq!(chip.full(&samples), (4, five(command, short, 0, 0, 0)));
            }
        }
    }
    // After EB and 38 of P in mode 1 the address takes six clocks.
    for opcode in [0xEB, 0x38] {
        let mut chip = Bench::p();
        let samples = join(&[&on(1, &[opcode]), &[0; 5]]);
        assert_eq!(chip.full(&samples), (4, five(8, 5, 0, 0, 0)));
    }
}

#[test]
fn row_7_address() {
    let mut chip = Bench::m();
    // Refused before the missing data is seen, and before the latch.
    chip.record.configurations[3] = 0x04;
    assert_eq!(
        chip.full(&on(1, &[0x02, 0, 4, 0])),
        (7, five(8, 24, 0, 0, 0))
    );
    assert_eq!(
        chip.full(&on(1, &[0x02, 0x80, 0, 0, 1, 2])),
        (7, five(8, 24, 0, 0, 16))
    );
    assert_eq!(
        chip.full(&on(1, &[0x42, 0, 1, 0, 1])),
        (7, five(8, 24, 0, 0, 8))
    );
    // The clocks that would have been wait are rest too.
    assert_eq!(
        chip.full(&on(1, &[0x4B, 0, 1, 0, 1, 1])),
        (7, five(8, 24, 0, 0, 16))
    );
    assert_eq!(chip.write(0x4B, 0xFF, &[]), 0);
    for n in 10..=21u8 {
        let mut chip = Bench::new(M, n);
        for bit in 0..24u32 {
            let expected = if bit < u32::from(n) { 0 } else { 7 };
            assert_eq!(chip.write(0x03, 1 << bit, &[]), expected);
            assert_eq!(chip.write(0x02, 1 << bit, &[0]), expected);
        }
    }
    let mut chip = Bench::p();
    for low in 1..16 {
        assert_eq!(chip.write(0xB5, low, &[0, 0]), 7);
        assert_eq!(chip.write(0xB1, low, &[0]), 7);
    }
    assert_eq!(chip.write(0xB1, 0xFF_FFF0, &[0x40]), 0);
    assert_eq!(chip.record.mr0, 0x40);
}

#[test]
fn row_4_data() {
    for (opcode, size) in [(0x01u8, 1usize), (0x1A, 1), (0x87, 4), (0xC2, 8)] {
        for mode in [1u8, 2, 4] {
            let full = size * 8 / mode as usize;
            for clocks in 0..full {
                let mut chip = Bench::m();
                chip.record.mode = mode;
                // Even with the latch down and with bad values: row 4 is above.
                let samples = join(&[&on(mode, &[opcode]), &vec![15; clocks]]);
                let expected = five(u32::from(8 / mode), 0, 0, clocks as u32, 0);
                assert_eq!(chip.full(&samples), (4, expected));
            }
        }
    }
    for clocks in 0..8u32 {
        let mut chip = Bench::m();
        let samples = join(&[&on(1, &[0x02, 0, 0, 0]), &vec![1; clocks as usize]]);
        assert_eq!(chip.full(&samples), (4, five(8, 24, 0, clocks, 0)));
        let mut chip = Bench::p();
        assert_eq!(chip.full(&samples), (4, five(8, 24, 0, clocks, 0)));
    }
}

#[test]
fn row_11_long() {
    for opcode in [0x00, 0x06, 0x04, 0x37, 0x38, 0xB9, 0xAB, 0x66, 0x99] {
        let mut chip = Bench::m();
        let before = chip.record;
        let samples = join(&[&on(1, &[opcode]), &[1]]);
        assert_eq!(chip.full(&samples), (11, five(8, 0, 0, 0, 1)));
        assert_eq!(chip.record, before);
    }
    for (opcode, size) in [(0x01u8, 1usize), (0x1A, 1), (0x87, 4), (0xC2, 8)] {
        let mut chip = Bench::m();
        let before = chip.record;
        let samples = join(&[&on(1, &[opcode]), &vec![0; size * 8 + 1]]);
        // The latch is down and zeros are no good configurations: 11 is above both.
        assert_eq!(chip.full(&samples), (11, five(8, 0, 0, size as u32 * 8, 1)));
        assert_eq!(chip.record, before);
    }
    let mut chip = Bench::p();
    assert_eq!(
        chip.full(&join(&[&on(1, &[0xB1, 0, 0, 0, 0xFF]), &[0; 9]])),
        (11, five(8, 24, 0, 8, 9))
    );
    assert_eq!(chip.record.mr0, 0x60);
}

#[test]
fn row_12_unarmed() {
    for mut chip in [Bench::m(), Bench::p()] {
        assert_eq!(chip.full(&on(1, &[0x99])), (12, five(8, 0, 0, 0, 0)));
        assert_eq!(chip.say_and(&[0x99], 1), 11);
        assert_eq!(chip.say(&[0x66]), 0);
        assert_eq!(chip.say(&[0x99]), 0);
        assert_eq!(chip.say(&[0x99]), 12);
    }
}

#[test]
fn row_8_latch() {
    for write_mode in 0..3u8 {
        let mut chip = Bench::m();
        chip.record.configurations[3] = 0x04 | write_mode;
        chip.record.status = 0x1C;
        let needed = write_mode != 1;
        // All of memory is protected: 8 is above 9.
        assert_eq!(chip.write(0x02, 0, &[1]), if needed { 8 } else { 9 });
        chip.record.area_protection = 0xFF;
        assert_eq!(chip.write(0x42, 0, &[1]), if needed { 8 } else { 9 });
        for bytes in [
            &[0x01, 0xFF][..],
            &[0x1A, 0x00],
            &[0x87, 0xFF, 0xFF, 0xFF, 0xFF],
            &[0xC2, 1, 2, 3, 4, 5, 6, 7, 8],
        ] {
            // Bad values or good ones: 8 is above 10.
            assert_eq!(chip.say(bytes), 8);
        }
    }
}

#[test]
fn row_10_reserved() {
    let status_fits = |value: u8| value & 0b1100_0001 == 0;
    for value in 0..=255u8 {
        let mut chip = Bench::m();
        let answer = chip.set(0x01, &[value]);
        assert_eq!(answer, if status_fits(value) { 0 } else { 10 });
        let stored = if answer == 0 { value & 0x3C } else { 0 };
        assert_eq!(chip.record.status, stored);
        // Done drops the latch, declined keeps it.
        assert_eq!(chip.record.latch, answer == 10);

        for place in 0..4 {
            let mut chip = Bench::m();
            let mut values = [0, 0x0F, 0x14, 0x06];
            values[place] = value;
            let fits = match place {
                0 => value == 0,
                1 => value < 16,
                2 => value & 8 == 0 && value % 8 < 5,
                _ => [4, 5, 6].contains(&value),
            };
            assert_eq!(chip.set(0x87, &values), if fits { 0 } else { 10 });
            let stored = if fits { values } else { [0, 8, 0, 5] };
            assert_eq!(chip.record.configurations, stored);
        }

        let mut chip = Bench::p();
        let fits = value & 0b1001_1100 == 0 && value % 4 != 3;
        assert_eq!(chip.write(0xB1, 0, &[value]), if fits { 0 } else { 10 });
        assert_eq!(chip.record.mr0, if fits { value } else { 0x60 });

        let mut chip = Bench::m();
        assert_eq!(chip.set(0x1A, &[value]), 0);
        assert_eq!(chip.record.area_protection, value);
        assert_eq!(chip.set(0xC2, &[value; 8]), 0);
        assert_eq!(chip.record.serial, [value; 8]);
    }
}

#[test]
fn row_9_every_share_top_and_bottom() {
    for n in [10u8, 11, 13] {
        let size = 1u32 << n;
        for code in 0..8u8 {
            let share = [
                0,
                size / 64,
                size / 32,
                size / 16,
                size / 8,
                size / 4,
                size / 2,
                size,
            ][code as usize];
            for bottom in [false, true] {
                let mut chip = Bench::new(M, n);
                chip.record.status = code << 2 | if bottom { 0x20 } else { 0 };
                for place in 0..size {
                    let safe = if bottom {
                        place < share
                    } else {
                        place >= size - share
                    };
                    let answer = chip.write(0x02, place, &[1]);
                    assert_eq!(answer, if safe { 9 } else { 0 });
                    assert_eq!(chip.memory[place as usize], u8::from(!safe));
                }
            }
        }
    }
}

#[test]
fn row_9_every_section() {
    for bits in [0x00, 0x01, 0x80, 0x5A, 0xFF] {
        let mut chip = Bench::m();
        chip.record.area_protection = bits;
        // The status protects nothing in the area.
        chip.record.status = 0x1C;
        for place in 0..256u32 {
            let safe = bits >> (place / 32) & 1 == 1;
            assert_eq!(chip.write(0x42, place, &[1]), if safe { 9 } else { 0 });
            assert_eq!(chip.area[place as usize], u8::from(!safe));
        }
        // And the sections protect nothing in memory.
        chip.record.status = 0;
        assert_eq!(chip.write(0x02, 0, &[1]), 0);
    }
}

#[test]
fn row_9_looks_at_whole_bytes_only() {
    let mut chip = Bench::m();
    chip.record.status = 0x24;
    // One whole byte at 0Fh, protected; seven clocks of one at 10h, which is not.
    let samples = join(&[&on(1, &[0x02, 0, 0, 0x0F, 0xEE]), &[1; 7]]);
    assert_eq!(chip.full(&samples), (9, five(8, 24, 0, 15, 0)));
    assert_eq!(chip.memory[0x0F..0x11], [0, 0]);
}

#[test]
fn refusals_change_nothing_but_the_arming() {
    let cases: &[(u8, &[u8], usize)] = &[
        (4, &[], 3),
        (4, &[0x02, 0, 0], 0),
        (5, &[0x0A], 4),
        (7, &[0x02, 0xFF, 0, 0, 1], 0),
        (8, &[0x1A, 0x55], 0),
        (11, &[0x06], 1),
        (12, &[0x99], 0),
    ];
    for &(expected, bytes, clocks) in cases {
        let mut chip = Bench::m().marked();
        chip.record.armed = expected != 12;
        let (record, memory, area) = (chip.record, chip.memory.clone(), chip.area.clone());
        let samples = join(&[&on(1, bytes), &vec![0; clocks]]);
        assert_eq!(chip.send(&samples), expected);
        assert_eq!(
            chip.record,
            Record {
                armed: false,
                ..record
            }
        );
        assert_eq!((chip.memory, chip.area), (memory, area));
    }
}

#[test]
fn reads_may_end_anywhere_after_the_address() {
    // Part M on one wire, 65 of the unique number: 8, 24, 8 and 64 clocks.
    let whole = join(&[&on(1, &[0x65, 0, 0, 0x40]), &[0; 8 + 64 + 5]]);
    for clocks in 0..=whole.len() {
        let mut chip = Bench::m();
        let (answer, counts) = chip.full(&whole[..clocks]);
        let left = |from: usize, most: usize| clocks.saturating_sub(from).min(most) as u32;
        let expected = five(
            left(0, 8),
            left(8, 24),
            left(32, 8),
            left(40, 64),
            left(104, 5),
        );
        assert_eq!(counts, expected);
        assert_eq!(answer, if clocks < 32 { 4 } else { 0 });
        let driven = out(1, &chip.record.unique);
        assert_eq!(chip.driven(), driven[..expected.data as usize]);
        let first = 40.min(clocks);
        assert!(chip.output[..first].iter().all(|&byte| byte == 0));
    }
    // Without an address it is the command that must be whole.
    let mut chip = Bench::m();
    assert_eq!(chip.full(&on(1, &[0x9F])), (0, five(8, 0, 0, 0, 0)));
}
