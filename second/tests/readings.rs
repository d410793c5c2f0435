//! The settled open points of document 01, those that a call can show. Each test
//! names the readings it stands for.

mod common;
use common::*;
use second::device::{fresh, Record};
use second::parts;

#[test]
fn opcodes_of_m() {
    for mode in [1, 2, 4] {
        // The memory write works in every mode.
        let mut chip = Bench::m();
        chip.record.mode = mode;
        assert_eq!(chip.write(0x02, 3, &[0x5A]), 0);
        assert_eq!(chip.memory[3], 0x5A);
        // The opcodes that the scan garbles.
        assert_eq!(chip.set(0x87, &[0, 1, 2, 5]), 0);
        assert_eq!(chip.set(0xC2, &[1, 2, 3, 4, 5, 6, 7, 8]), 0);
        assert_eq!(chip.set(0x1A, &[0]), 0);
        for opcode in [0xA2, 0xC0, 0x0A, 0x71, 0xBA, 0x0B, 0xDA, 0x0D, 0xDE] {
            // Not listed is not known.
            assert_eq!(chip.say(&[opcode, 0, 0, 0, 0]), 5);
        }
    }
    let mut chip = Bench::m();
    assert_eq!(chip.write(0x42, 3, &[0x5A]), 0);
    assert_eq!(chip.area[3], 0x5A);
}

#[test]
fn only_ab_wakes() {
    let mut chip = Bench::m();
    assert_eq!(chip.say(&[0xB9]), 0);
    assert_eq!(chip.send(&[]), 4);
    assert_eq!(chip.send(&[1, 0, 1]), 4);
    assert_eq!(chip.say(&[0x06]), 6);
    assert!(chip.record.asleep);
    assert_eq!(chip.say(&[0xAB]), 0);
    assert!(!chip.record.asleep);
}

#[test]
fn values_with_a_meaning_elsewhere_are_refused() {
    let mut chip = Bench::m();
    for value in [0x80, 0x40] {
        assert_eq!(chip.set(0x01, &[value]), 10);
    }
    for value in [0x04, 0x01] {
        assert_eq!(chip.set(0x87, &[value, 8, 0, 5]), 10);
    }
    for value in [0x40, 0x10] {
        assert_eq!(chip.set(0x87, &[0, value, 0, 5]), 10);
    }
    // The bus mode does not show in configuration 2.
    for mode in [1, 2, 4] {
        chip.record.mode = mode;
        assert_eq!(chip.say(&[0x3F, 0]), 0);
        assert_eq!(chip.driven(), out(mode, &[0x08]));
    }
}

#[test]
fn mode_register_of_p() {
    let mut chip = Bench::p();
    chip.record.mr0 = 0x42;
    let samples = join(&[&on(1, &[0xB5, 0, 0, 0]), &[0; 8], &[0; 8], &[0; 3]]);
    assert_eq!(chip.full(&samples), (0, five(8, 24, 8, 8, 3)));
    assert_eq!(chip.driven(), out(1, &[0x42]));
    chip.record.mode = 4;
    let samples = join(&[&on(4, &[0xB5, 0, 0, 0]), &[0; 6], &[0; 2], &[0; 1]]);
    assert_eq!(chip.full(&samples), (0, five(2, 6, 6, 2, 1)));
    assert_eq!(chip.driven(), out(4, &[0x42]));
}

#[test]
fn identity_of_p() {
    let mut chip = Bench::p();
    for address in [0, 0x123456, 0xFFFFFF] {
        let samples = join(&[&on(1, &join(&[&[0x9F], &at(address)])), &[0; 64]]);
        assert_eq!(chip.full(&samples), (0, five(8, 24, 0, 64, 0)));
        assert_eq!(chip.driven(), out(1, &chip.record.identity));
    }
    let samples = join(&[&on(1, &[0x9F, 0, 0, 0]), &[0; 70]]);
    assert_eq!(chip.full(&samples), (0, five(8, 24, 0, 64, 6)));
    assert_eq!(chip.full(&on(1, &[0x9F, 0, 0])), (4, five(8, 16, 0, 0, 0)));
}

#[test]
fn order_of_address_and_numbers() {
    let mut chip = Bench::new(M, 16);
    assert_eq!(chip.say(&[0x02, 0x00, 0x12, 0x34, 0x77]), 0);
    assert_eq!(chip.memory[0x1234], 0x77);
    let serial = [1, 2, 3, 4, 5, 6, 7, 8];
    assert_eq!(chip.set(0xC2, &serial), 0);
    assert_eq!(chip.record.serial, serial);
    assert_eq!(chip.say_and(&[0xC3], 64), 0);
    assert_eq!(chip.driven(), out(1, &serial));
}

#[test]
fn unused_wires_and_large_samples() {
    // Noise above the wire in use changes nothing.
    let mut chip = Bench::m();
    let noisy: Vec<u8> = on(1, &[0x06]).iter().map(|s| s | 0x0E).collect();
    assert_eq!(chip.send(&noisy), 0);
    assert!(chip.record.latch);
    let mut chip = Bench::m();
    chip.record.mode = 2;
    let noisy: Vec<u8> = on(2, &[0x06]).iter().map(|s| s | 0x0C).collect();
    assert_eq!(chip.send(&noisy), 0);
    assert!(chip.record.latch);
    // A large sample is 2 wherever it stands, in rest or wait too.
    let mut chip = Bench::m();
    assert_eq!(chip.send(&join(&[&on(1, &[0x0A]), &[0, 0, 16]])), 2);
    let read = on(1, &[0x65, 0, 0, 0]);
    assert_eq!(chip.send(&join(&[&read, &[0, 16], &[0; 14]])), 2);
    assert_eq!(chip.send(&join(&[&read, &[0; 8], &[0; 8], &[16]])), 2);
}

#[test]
fn an_unfinished_byte_is_driven() {
    let mut chip = Bench::m().marked();
    chip.memory[5] = 0b1011_0110;
    let samples = join(&[&on(1, &[0x03, 0, 0, 5]), &[0; 5]]);
    assert_eq!(chip.full(&samples), (0, five(8, 24, 0, 5, 0)));
    assert_eq!(chip.driven(), [0x22, 0x20, 0x22, 0x22, 0x20]);
    // Past a fixed size nothing is driven.
    let samples = join(&[&on(1, &[0x14]), &[0; 11]]);
    assert_eq!(chip.full(&samples), (0, five(8, 0, 0, 8, 3)));
    assert_eq!(chip.output[16..19], [0; 3]);
}

#[test]
fn command_on_one_wire_rest_on_four() {
    let mut chip = Bench::p();
    let noisy: Vec<u8> = on(1, &[0x38]).iter().map(|s| s | 0x0E).collect();
    let samples = join(&[&noisy, &on(4, &[0, 1, 2, 0xC3, 0x5A])]);
    assert_eq!(chip.full(&samples), (0, five(8, 6, 0, 4, 0)));
    assert_eq!(chip.memory[0x102..0x104], [0xC3, 0x5A]);
    let noisy: Vec<u8> = on(1, &[0xEB]).iter().map(|s| s | 0x0E).collect();
    let samples = join(&[&noisy, &on(4, &[0, 1, 2]), &[9; 6], &[9; 3]]);
    assert_eq!(chip.full(&samples), (0, five(8, 6, 6, 3, 0)));
    assert_eq!(chip.driven(), [0xFC, 0xF3, 0xF5]);
}

#[test]
fn wake() {
    let mut chip = Bench::m();
    assert_eq!(chip.say(&[0x66]), 0);
    assert_eq!(chip.say(&[0xAB]), 0);
    assert_eq!(chip.say(&[0x99]), 12);
    for mode in [1, 2, 4] {
        let mut chip = Bench::m();
        chip.record.mode = mode;
        chip.record.latch = true;
        assert_eq!(chip.say(&[0xB9]), 0);
        assert_eq!(chip.say_and(&[0xAB], 1), 11);
        assert!(chip.record.asleep);
        assert_eq!(chip.say(&[0xAB]), 0);
        assert!(!chip.record.asleep && chip.record.latch);
        assert_eq!(chip.record.mode, mode);
    }
}

#[test]
fn waits_of_m() {
    for waits in 0..16u8 {
        let mut chip = Bench::m().marked();
        chip.record.configurations[1] = waits;
        for (mode, wait) in [(1, 8), (2, 4), (4, 2)] {
            chip.record.mode = mode;
            let samples = join(&[
                &on(mode, &[0x65, 0, 0, 3]),
                &vec![0; wait + 8 / mode as usize],
            ]);
            let counts = chip.full(&samples).1;
            assert_eq!(counts.wait, wait as u32);
            assert_eq!(chip.driven(), out(mode, &[waits]));
        }
        chip.record.mode = 1;
        let samples = join(&[&on(1, &[0x03, 0, 0, 9]), &[0; 8]]);
        assert_eq!(chip.full(&samples), (0, five(8, 24, 0, 8, 0)));
        let samples = join(&[&on(1, &[0x4B, 0, 0, 9]), &[0; 23]]);
        let wait = u32::from(waits);
        assert_eq!(chip.full(&samples), (0, five(8, 24, wait, 23 - wait, 0)));
        assert_eq!(chip.output[32 + waits as usize] & 0x20, 0x20);
    }
}

#[test]
fn register_map() {
    let mut chip = Bench::m();
    chip.record.status = 0x38;
    chip.record.configurations = [0, 7, 0xF4, 6];
    let map: [(u32, Vec<u8>); 7] = [
        (0x00, vec![0x38]),
        (0x02, vec![0]),
        (0x03, vec![7]),
        (0x04, vec![0xF4]),
        (0x05, vec![6]),
        (0x30, chip.record.identity[..4].to_vec()),
        (0x40, chip.record.unique.to_vec()),
    ];
    for address in 0..0x200u32 {
        let samples = join(&[&on(1, &join(&[&[0x65], &at(address)])), &[0; 8 + 70]]);
        let (answer, counts) = chip.full(&samples);
        match map.iter().find(|(place, _)| *place == address) {
            Some((_, bytes)) => {
                let data = bytes.len() as u32 * 8;
                assert_eq!((answer, counts), (0, five(8, 24, 8, data, 70 - data)));
                assert_eq!(chip.driven(), out(1, bytes));
            }
            None => assert_eq!((answer, counts), (7, five(8, 24, 0, 0, 78))),
        }
    }
    for bit in 8..24 {
        assert_eq!(chip.write(0x65, 1 << bit, &[0, 0]), 7);
        assert_eq!(chip.write(0x65, 1 << bit | 0x30, &[0, 0]), 7);
    }
}

#[test]
fn configurations_all_or_none() {
    let mut chip = Bench::m();
    assert_eq!(chip.set(0x87, &[0, 3, 0x11, 0x07]), 10);
    assert_eq!(chip.record.configurations, [0, 8, 0, 5]);
    // Codes 5 to 7 are refused with the wrap bit down as well.
    for code in 5..8 {
        assert_eq!(chip.say(&[0x87, 0, 3, code, 0x05]), 10);
    }
    assert!(chip.record.latch);
    assert_eq!(chip.say(&[0x87, 0, 3, 0xE4, 0x05]), 0);
    assert_eq!(chip.record.configurations, [0, 3, 0xE4, 5]);
}

#[test]
fn wrapping_of_m() {
    for code in 0..5u8 {
        let group = 16usize << code;
        let mut chip = Bench::m().marked();
        chip.record.configurations[2] = 0x10 | code;
        let start = 0x200 + group - 2;
        assert_eq!(chip.write(0x03, start as u32, &vec![0; group + 3]), 0);
        let expected: Vec<u8> = (0..group + 3)
            .map(|i| chip.memory[0x200 + (group - 2 + i) % group])
            .collect();
        assert_eq!(chip.driven(), out(1, &expected));
        // Not without the bit.
        chip.record.configurations[2] = code;
        assert_eq!(chip.write(0x03, start as u32, &[0; 4]), 0);
        assert_eq!(chip.driven(), out(1, &chip.memory[start..start + 4]));
        // And never the area, which returns to 0 past its end.
        chip.record.configurations[2] = 0x10 | code;
        chip.record.configurations[1] = 0;
        assert_eq!(chip.write(0x4B, 0xFE, &[0; 20]), 0);
        let expected: Vec<u8> = (0..20).map(|i| chip.area[(0xFE + i) % 256]).collect();
        assert_eq!(chip.driven(), out(1, &expected));
        assert_eq!(chip.write(0x42, 0xFE, &[1, 2, 3, 4]), 0);
        assert_eq!(chip.area[0xFE..], [1, 2]);
        assert_eq!(chip.area[..2], [3, 4]);
    }
    // A plain read goes on past the top.
    let mut chip = Bench::m().marked();
    assert_eq!(chip.write(0x03, 0x3FE, &[0; 4]), 0);
    let [a, b, c, d] = [0x3FE, 0x3FF, 0, 1].map(|place| chip.memory[place]);
    assert_eq!(chip.driven(), out(1, &[a, b, c, d]));
}

#[test]
fn a_burst_may_lap() {
    let data: Vec<u8> = (0..1030u32).map(|i| (i / 5) as u8 + 1).collect();
    let mut chip = Bench::m();
    chip.record.mode = 4;
    assert_eq!(chip.write(0x02, 0x10, &data), 0);
    for (i, &byte) in data.iter().enumerate().skip(6) {
        assert_eq!(chip.memory[(0x10 + i) % 1024], byte);
    }
    // With the top protected, the bytes there are skipped in both laps.
    let mut chip = Bench::m();
    chip.record.mode = 4;
    chip.record.status = 0x04;
    assert_eq!(chip.write(0x02, 0x3EF, &data), 0);
    assert_eq!(chip.memory[0x3F0..], [0; 16]);
    assert_eq!(chip.memory[0x3EF], data[1024]);
    // An area lap.
    let mut chip = Bench::m();
    assert_eq!(chip.write(0x42, 0x10, &data[..300]), 0);
    assert_eq!(chip.area[0x10], data[256]);
    assert_eq!(chip.area[0x10 + 44], data[44]);
    // P: round a group twice.
    let mut chip = Bench::p();
    chip.record.mr0 = 0;
    assert_eq!(chip.write(0x02, 0x23, &data[..40]), 0);
    for (i, &byte) in data.iter().enumerate().take(40).skip(24) {
        assert_eq!(chip.memory[0x20 + (3 + i) % 16], byte);
    }
    assert!(chip.memory[..0x20].iter().all(|&byte| byte == 0));
    assert!(chip.memory[0x30..].iter().all(|&byte| byte == 0));
}

#[test]
fn shares_of_the_largest_memory() {
    let mut chip = Bench::new(M, 21);
    chip.record.status = 6 << 2;
    assert_eq!(chip.write(0x02, 0x0FFFFF, &[1]), 0);
    assert_eq!(chip.write(0x02, 0x100000, &[1]), 9);
    assert_eq!(chip.write(0x02, 0x1FFFFF, &[1]), 9);
    chip.record.status = 0x24;
    assert_eq!(chip.write(0x02, 0x007FFF, &[1]), 9);
    assert_eq!(chip.write(0x02, 0x008000, &[1]), 0);
}

#[test]
fn bit_1_of_the_status() {
    let mut chip = Bench::m();
    assert_eq!(chip.set(0x01, &[0x3E]), 0);
    assert_eq!(chip.record.status, 0x3C);
    for (latch, shown) in [(false, 0x3C), (true, 0x3E)] {
        chip.record.latch = latch;
        assert_eq!(chip.say_and(&[0x05], 8), 0);
        assert_eq!(chip.driven(), out(1, &[shown]));
        assert_eq!(chip.say_and(&[0x65, 0, 0, 0], 16), 0);
        assert_eq!(chip.driven(), out(1, &[shown]));
    }
    assert_eq!(chip.set(0x01, &[0x02]), 0);
    assert_eq!(chip.record.status, 0);
}

#[test]
fn fresh_chips() {
    let m = fresh(&parts::M, 17, [1, 2, 3, 4, 0, 0, 0, 0], [9; 8]);
    assert_eq!((m.part, m.n), (1, 17));
    assert_eq!((m.mode, m.status, m.area_protection, m.mr0), (1, 0, 0, 0));
    assert_eq!(m.configurations, [0, 8, 0, 5]);
    assert_eq!((m.serial, m.unique), ([0; 8], [9; 8]));
    assert!(!(m.latch || m.armed || m.asleep || m.toggle));
    let p = fresh(&parts::P, 21, [1; 8], [0; 8]);
    assert_eq!((p.part, p.n), (2, 21));
    assert_eq!((p.mode, p.mr0, p.configurations), (1, 0x60, [0; 4]));
    assert!(!(p.latch || p.armed || p.asleep || p.toggle));
}

#[test]
fn declined_writes_keep_the_latch() {
    for write_mode in 0..3u8 {
        let mut chip = Bench::m();
        chip.record.configurations[3] = 0x04 | write_mode;
        chip.record.latch = true;
        assert_eq!(chip.say(&[0x01, 0x80]), 10);
        assert_eq!(chip.say_and(&[0x01, 0x00], 1), 11);
        assert_eq!(chip.say(&[0x01]), 4);
        assert_eq!(chip.say(&[0x02, 0, 0, 0]), 4);
        assert_eq!(chip.say(&[0x02, 0x80, 0, 0, 1]), 7);
        assert!(chip.record.latch);
    }
}

#[test]
fn odd_but_valid_records() {
    let mut chip = Bench::m();
    chip.record.armed = true;
    chip.record.asleep = true;
    assert_eq!(chip.say(&[0x99]), 6);
    assert!(!chip.record.armed && chip.record.asleep);
    chip.record.mode = 3;
    assert_eq!(chip.send(&[0; 8]), 3);
    chip.record.n = 22;
    assert_eq!(chip.send(&[0; 8]), 1);
}

#[test]
fn table_of_p() {
    let mut chip = Bench::p();
    for opcode in [0x03, 0x9F, 0x35] {
        chip.record.mode = 4;
        assert_eq!(chip.say(&[opcode, 0, 0, 0]), 5);
    }
    chip.record.mode = 1;
    assert_eq!(chip.say(&[0xF5]), 5);
    for (opcode, one, four) in [(0x0B, 8, 4), (0x8B, 8, 6), (0xB5, 8, 6), (0xEB, 6, 6)] {
        for (mode, wait) in [(1, one), (4, four)] {
            chip.record.mode = mode;
            let wires = if opcode == 0xEB { 4 } else { mode };
            let samples = join(&[&on(mode, &[opcode]), &on(wires, &[0, 0, 0]), &[0; 10]]);
            assert_eq!(chip.full(&samples).1.wait, wait);
        }
    }
    // 35 and 38 are other commands on M.
    let mut m = Bench::m();
    assert_eq!(m.say(&[0x35, 0]), 0);
    assert_eq!(m.driven(), out(1, &[0]));
    assert_eq!(m.say(&[0x38]), 0);
    assert_eq!(m.record.mode, 4);
    let mut p = Bench::p();
    assert_eq!(p.say(&[0x35]), 0);
    assert_eq!(p.record.mode, 4);
    assert_eq!(p.write(0x38, 1, &[0x99]), 0);
    assert_eq!(p.memory[1], 0x99);
    assert_eq!(p.say(&[0xF5]), 0);
    assert_eq!(p.record.mode, 1);
}

#[test]
fn toggle() {
    for code in 0..4u8 {
        let mut chip = Bench::p();
        chip.record.mr0 = code << 5;
        let own = [16, 32, 64, 512][code as usize];
        for length in [own, 32, own, 32] {
            chip.memory.fill(0);
            assert_eq!(chip.write(0x02, 0x200 + length - 1, &[1, 2]), 0);
            assert_eq!(chip.memory[0x200 + length as usize - 1], 1);
            assert_eq!(chip.memory[0x200], 2);
            assert_eq!(chip.say(&[0xC0]), 0);
        }
    }
    // B1 leaves the flag alone.
    let mut chip = Bench::p();
    assert_eq!(chip.say(&[0xC0]), 0);
    assert_eq!(chip.write(0xB1, 0, &[0x40]), 0);
    assert!(chip.record.toggle);
    assert_eq!(chip.say(&[0xC0]), 0);
    assert!(!chip.record.toggle);
}

#[test]
fn every_memory_command_of_p_wraps() {
    for (opcode, mode, wait) in [
        (0x03, 1, 0),
        (0x0B, 1, 8),
        (0x8B, 1, 8),
        (0x0B, 4, 4),
        (0x8B, 4, 6),
        (0xEB, 4, 6),
        (0xEB, 1, 6),
    ] {
        let mut chip = Bench::p().marked();
        chip.record.mr0 = 0x20;
        chip.record.mode = mode;
        let wires = if opcode == 0xEB { 4 } else { mode };
        let clocks = 4 * 8 / wires as usize;
        // Bits 10 and up are dropped first.
        let address = on(wires, &at(0xABC000 | 0x3DE));
        let samples = join(&[&on(mode, &[opcode]), &address, &vec![0; wait + clocks]]);
        assert_eq!(chip.send(&samples), 0);
        let expected = [0x3DE, 0x3DF, 0x3C0, 0x3C1].map(|place| chip.memory[place]);
        assert_eq!(chip.driven(), out(wires, &expected));
    }
    for (opcode, mode) in [
        (0x02, 1),
        (0x82, 1),
        (0x38, 1),
        (0x02, 4),
        (0x82, 4),
        (0x38, 4),
    ] {
        let mut chip = Bench::p();
        chip.record.mr0 = 0x20;
        chip.record.mode = mode;
        let wires = if opcode == 0x38 { 4 } else { mode };
        let address = on(wires, &at(0xABC000 | 0x3DF));
        let samples = join(&[&on(mode, &[opcode]), &address, &on(wires, &[1, 2])]);
        assert_eq!(chip.send(&samples), 0);
        assert_eq!((chip.memory[0x3DF], chip.memory[0x3C0]), (1, 2));
        assert_eq!(chip.memory[0x3E0], 0);
    }
}

#[test]
fn arming() {
    for part in [M, P, M32] {
        let mut chip = Bench::new(part, 10);
        assert_eq!(chip.say(&[0x66]), 0);
        assert_eq!(chip.say(&[0x66]), 0);
        assert_eq!(chip.say(&[0x99]), 0);
        // A zero-clock transaction comes between.
        assert_eq!(chip.say(&[0x66]), 0);
        assert_eq!(chip.send(&[]), 4);
        assert_eq!(chip.say(&[0x99]), 12);
        // Answers 1, 2 and 3 leave the chip armed.
        assert_eq!(chip.say(&[0x66]), 0);
        assert_eq!(chip.send(&[16]), 2);
        let mode = chip.record.mode;
        chip.record.mode = 5;
        assert_eq!(chip.send(&[0]), 3);
        chip.record.mode = mode;
        chip.memory.push(0);
        assert_eq!(chip.send(&[0]), 1);
        chip.memory.pop();
        assert_eq!(chip.say(&[0x99]), 0);
        // A clock too many: the 66 is 11, the reset 12.
        assert_eq!(chip.say(&[0x66]), 0);
        assert_eq!(chip.say_and(&[0x66], 1), 11);
        assert_eq!(chip.say(&[0x99]), 12);
        // A reset that was 11 disarms.
        assert_eq!(chip.say(&[0x66]), 0);
        assert_eq!(chip.say_and(&[0x99], 1), 11);
        assert_eq!(chip.say(&[0x99]), 12);
        // A cut 66 does not arm.
        assert_eq!(chip.send(&on(1, &[0x66])[..7]), 4);
        assert_eq!(chip.say(&[0x99]), 12);
        // A power cycle disarms.
        assert_eq!(chip.say(&[0x66]), 0);
        assert_eq!(chip.cycle(), 0);
        assert_eq!(chip.say(&[0x99]), 12);
    }
}

#[test]
fn no_reset_asleep() {
    let mut chip = Bench::m();
    chip.record.asleep = true;
    assert_eq!(chip.say(&[0x66]), 6);
    assert!(!chip.record.armed);
    assert_eq!(chip.say(&[0x99]), 6);
    assert!(chip.record.asleep);
}

#[test]
fn reset_and_power_cycle() {
    let deep_m = || {
        let mut chip = Bench::m().marked();
        chip.record.status = 0x2C;
        chip.record.area_protection = 0x81;
        chip.record.configurations = [0, 3, 0x52, 6];
        chip.record.serial = [7; 8];
        chip.record.latch = true;
        chip.record.mode = 4;
        chip
    };
    let mut chip = deep_m();
    let before = chip.record;
    assert_eq!(chip.say(&[0x66]), 0);
    assert_eq!(chip.say(&[0x99]), 0);
    assert_eq!(
        chip.record,
        Record {
            latch: false,
            mode: 1,
            ..before
        }
    );
    assert_eq!(chip.memory, deep_m().memory);
    let mut chip = deep_m();
    chip.record.asleep = true;
    chip.record.armed = true;
    assert_eq!(chip.cycle(), 0);
    assert_eq!(
        chip.record,
        Record {
            latch: false,
            mode: 1,
            ..before
        }
    );
    assert_eq!(chip.memory, deep_m().memory);
    assert_eq!(chip.area, deep_m().area);

    let deep_p = || {
        let mut chip = Bench::p().marked();
        chip.record.mode = 4;
        chip.record.mr0 = 0x22;
        chip.record.toggle = true;
        chip
    };
    let fresh = Bench::p().record;
    let mut chip = deep_p();
    assert_eq!(chip.say(&[0x66]), 0);
    assert_eq!(chip.say(&[0x99]), 0);
    assert_eq!(chip.record, fresh);
    assert_eq!(chip.memory, deep_p().memory);
    let mut chip = deep_p();
    chip.record.armed = true;
    assert_eq!(chip.cycle(), 0);
    assert_eq!(chip.record, fresh);
    assert!(chip.memory.iter().all(|&byte| byte == 0));
}

#[test]
fn checks_of_a_power_cycle() {
    let mut chip = Bench::p().marked();
    chip.memory.push(1);
    let (record, memory) = (chip.record, chip.memory.clone());
    assert_eq!(chip.cycle(), 1);
    assert_eq!((chip.record, &chip.memory), (record, &memory));
    chip.memory.pop();
    chip.record.latch = true;
    let (record, memory) = (chip.record, chip.memory.clone());
    assert_eq!(chip.cycle(), 3);
    assert_eq!((chip.record, &chip.memory), (record, &memory));
    // 1 is above 3.
    chip.area.push(0);
    assert_eq!(chip.cycle(), 1);
}

#[test]
fn order_and_counts() {
    let mut chip = Bench::m();
    chip.record.asleep = true;
    assert_eq!(chip.full(&on(1, &[0x0A, 0])), (6, five(8, 0, 0, 0, 8)));
    let mut chip = Bench::m();
    assert_eq!(chip.say_and(&[0x99], 1), 11);
    assert_eq!(
        chip.full(&on(1, &[0x42, 0, 1, 0])),
        (7, five(8, 24, 0, 0, 0))
    );
    // A read cut in its wait.
    let samples = join(&[&on(1, &[0x65, 0, 0, 0]), &[0; 3]]);
    assert_eq!(chip.full(&samples), (0, five(8, 24, 3, 0, 0)));
    assert!(chip.driven().is_empty());
}

#[test]
fn ignored_address_bits_of_p() {
    for n in [10u8, 14, 21] {
        let mut chip = Bench::new(P, n);
        for bit in n..24 {
            assert_eq!(chip.write(0x02, 1 << bit | 5, &[bit]), 0);
            assert_eq!(chip.memory[5], bit);
        }
    }
}
