//! The write latch in every write mode: what drops it, what keeps it and what
//! shows it (document 01, with request P3 of document 02).

mod common;
use common::*;
use second::latched::{Reached, Seen};
use second::tape::run;

/// Opcode and allowed values of each register write; the configurations come with
/// this write mode.
fn register_writes(write_mode: u8) -> [Vec<u8>; 4] {
    [
        vec![0x01, 0x00],
        vec![0x1A, 0x00],
        vec![0x87, 0, 0x03, 0x11, 0x04 | write_mode],
        vec![0xC2, 1, 2, 3, 4, 5, 6, 7, 8],
    ]
}

/// Register writes with a value that is not allowed.
fn wrong_values(write_mode: u8) -> [Vec<u8>; 5] {
    [
        vec![0x01, 0x80],
        vec![0x01, 0x03],
        vec![0x87, 1, 0, 0, 0x04 | write_mode],
        vec![0x87, 0, 0, 0x07, 0x04 | write_mode],
        vec![0x87, 0, 0, 0, 0x07],
    ]
}

/// A chip in this bus mode and write mode.
fn chip_with(part: u8, mode: u8, write_mode: u8, latch: bool) -> Bench {
    let mut chip = Bench::new(part, 10);
    chip.record.mode = mode;
    chip.record.configurations[3] = 0x04 | write_mode;
    chip.record.latch = latch;
    chip
}

/// The latch is as expected, in the record and in the status as it is read.
fn assert_latch(chip: &mut Bench, expected: bool) {
    assert_eq!(chip.record.latch, expected);
    let mode = chip.record.mode;
    let shown = chip.record.status | if expected { 0x02 } else { 0x00 };
    assert_eq!(chip.say(&[0x05, 0]), 0);
    assert_eq!(chip.driven(), out(mode, &[shown]));
    // 65 at address 0, with a wait as long as a byte.
    assert_eq!(chip.say(&[0x65, 0, 0, 0, 0, 0]), 0);
    assert_eq!(chip.driven(), out(mode, &[shown]));
}

/// Tries something on both parts with a latch, in every bus mode and write mode.
fn in_every_mode(try_in: impl Fn(u8, u8, u8)) {
    for part in MRAMS {
        for mode in [1, 2, 4] {
            for write_mode in 0..3 {
                try_in(part, mode, write_mode);
            }
        }
    }
}

#[test]
fn a_register_write_done_drops_the_latch() {
    in_every_mode(|part, mode, write_mode| {
        for bytes in register_writes(write_mode) {
            let mut chip = chip_with(part, mode, write_mode, true);
            assert_eq!(chip.say(&bytes), 0);
            assert_latch(&mut chip, false);
        }
        // Bit 1 of the value written has no say.
        let mut chip = chip_with(part, mode, write_mode, true);
        assert_eq!(chip.say(&[0x01, 0x3E]), 0);
        assert_eq!(chip.record.status, 0x3C);
        assert_latch(&mut chip, false);
    });
}

#[test]
fn a_change_of_the_write_mode_drops_the_latch() {
    in_every_mode(|part, mode, before| {
        for after in 0..3 {
            let mut chip = chip_with(part, mode, before, true);
            assert_eq!(chip.say(&[0x87, 0, 0, 0, 0x04 | after]), 0);
            assert_eq!(chip.record.configurations, [0, 0, 0, 0x04 | after]);
            assert_latch(&mut chip, false);
            // What needs the latch now goes by the new write mode.
            let expected = if after == 1 { 0 } else { 8 };
            assert_eq!(chip.write(0x02, 0x40, &[1]), expected);
            assert_eq!(chip.say(&[0x87, 0, 0, 0, 0x04 | before]), 8);
        }
    });
}

#[test]
fn a_declined_register_write_keeps_the_latch() {
    in_every_mode(|part, mode, write_mode| {
        let mut chip = chip_with(part, mode, write_mode, true);
        let before = chip.record;
        for bytes in register_writes(write_mode) {
            let whole = on(mode, &bytes);
            for clocks in whole.len() - on(mode, &bytes[1..]).len()..whole.len() {
                assert_eq!(chip.send(&whole[..clocks]), 4);
                assert!(chip.record.latch);
            }
            assert_latch(&mut chip, true);
            assert_eq!(chip.say_and(&bytes, 1), 11);
            assert_latch(&mut chip, true);
        }
        for bytes in wrong_values(write_mode) {
            assert_eq!(chip.say(&bytes), 10);
            assert_latch(&mut chip, true);
        }
        assert_eq!(chip.record, before);
    });
}

#[test]
fn a_declined_register_write_leaves_the_latch_down() {
    in_every_mode(|part, mode, write_mode| {
        let mut chip = chip_with(part, mode, write_mode, false);
        let before = chip.record;
        for bytes in register_writes(write_mode) {
            assert_eq!(chip.say(&bytes), 8);
            assert_latch(&mut chip, false);
            assert_eq!(chip.say(&bytes[..bytes.len() - 1]), 4);
            assert_eq!(chip.say_and(&bytes, 1), 11);
            assert_latch(&mut chip, false);
        }
        for bytes in wrong_values(write_mode) {
            assert_eq!(chip.say(&bytes), 8);
            assert_latch(&mut chip, false);
        }
        assert_eq!(chip.record, before);
    });
}

/// Memory and area, stored and all protected.
#[test]
fn a_burst_drops_the_latch_in_write_mode_0_alone() {
    in_every_mode(|part, mode, write_mode| {
        for opcode in [0x02, 0x42] {
            if opcode == 0x42 && mode != 1 {
                continue;
            }
            for (protection, answer) in [(0x00, 0), (0x1C, 9)] {
                let mut chip = chip_with(part, mode, write_mode, true);
                chip.record.status = protection;
                chip.record.area_protection = protection;
                // In a section that is protected on both parts.
                assert_eq!(chip.write(opcode, 0x80, &[1]), answer);
                assert_latch(&mut chip, write_mode != 0);
                // In mode 0 the next one needs a write enable, in 1 and 2 not.
                let again = if write_mode == 0 { 8 } else { answer };
                assert_eq!(chip.write(opcode, 0x81, &[2]), again);
                assert_latch(&mut chip, write_mode != 0);
            }
            // With the latch down it stays down.
            let mut chip = chip_with(part, mode, write_mode, false);
            let expected = if write_mode == 1 { 0 } else { 8 };
            assert_eq!(chip.write(opcode, 0x40, &[1]), expected);
            assert_latch(&mut chip, false);
        }
    });
}

#[test]
fn a_memory_write_behind_a_register_write_done() {
    in_every_mode(|part, mode, write_mode| {
        for bytes in register_writes(write_mode) {
            let mut chip = chip_with(part, mode, write_mode, true);
            assert_eq!(chip.say(&bytes), 0);
            let expected = if write_mode == 1 { 0 } else { 8 };
            assert_eq!(chip.write(0x02, 0x40, &[0x5A]), expected);
            assert_eq!(chip.memory[0x40], if write_mode == 1 { 0x5A } else { 0 });
            // A write enable brings it back, up to the next register write.
            assert_eq!(chip.say(&[0x06]), 0);
            assert_eq!(chip.write(0x02, 0x40, &[0xA5]), 0);
            assert_eq!(chip.memory[0x40], 0xA5);
            assert_eq!(chip.say(&bytes), if write_mode == 0 { 8 } else { 0 });
            assert_latch(&mut chip, false);
        }
    });
}

/// In write mode 2 one write enable serves many bursts, but one register write.
#[test]
fn back_to_back_bursts_up_to_a_register_write() {
    let mut chip = chip_with(M, 1, 2, false);
    assert_eq!(chip.say(&[0x06]), 0);
    for place in 0..4 {
        assert_eq!(chip.write(0x02, place, &[1]), 0);
        assert_eq!(chip.write(0x42, place, &[1]), 0);
    }
    assert_eq!(chip.say(&[0x1A, 0x80]), 0);
    assert_eq!(chip.say(&[0x1A, 0x00]), 8);
    assert_eq!(chip.write(0x02, 4, &[1]), 8);
    assert_eq!(chip.write(0x42, 4, &[1]), 8);
    assert_eq!(chip.record.area_protection, 0x80);
}

// ---- What coverage counts ----

/// A tape's record of this kind.
fn record(kind: u8, payload: &[u8]) -> Vec<u8> {
    join(&[&(payload.len() as u16).to_le_bytes(), &[kind, 0], payload])
}

/// What a tape reaches: a fresh part M (write mode 1), a write enable and these.
fn reached(records: &[Vec<u8>]) -> (String, bool) {
    let enable = record(1, &on(1, &[0x06]));
    let tape = join(&[&record(3, &[M, 10]), &enable, &records.concat()]);
    let mut seen = Vec::new();
    run(&tape, &mut |step| seen.push(Seen::new(step)));
    assert_eq!(seen.len(), 2 + records.len());
    let mut reached = Reached::default();
    reached.add_tape(&seen);
    let mut text = String::new();
    let complete = reached.show("reached:", &mut text);
    (text, complete)
}

#[test]
fn coverage_counts_a_write_with_what_stands_right_behind_it() {
    let say = |bytes: &[u8]| record(1, &on(1, bytes));
    let cut = |bytes: &[u8]| record(1, &on(1, bytes)[..8 * bytes.len() - 1]);
    let read = say(&[0x05, 0]);
    let memory = say(&[0x02, 0, 0, 9, 7]);
    let counts = |records: &[&Vec<u8>], word: &str| {
        let records: Vec<Vec<u8>> = records.iter().map(|&bytes| bytes.clone()).collect();
        let (text, complete) = reached(&records);
        assert!(!complete);
        let mode_1 = text.lines().nth(2).unwrap_or("");
        assert!(mode_1.starts_with("  part M, write mode 1: "));
        // No word but this one is ever counted here.
        assert_eq!(text.matches("=0").count() + text.matches("=1").count(), 66);
        let met = format!("{word}=1");
        assert!(text.matches("=1").count() <= 1);
        mode_1.contains(&met)
    };
    let protection = say(&[0x1A, 1]);
    let nothing = say(&[0x00]);
    let cycle = record(2, &[]);
    assert!(counts(&[&protection, &read, &memory], "1A 0"));
    // A read with clocks past its byte is as good.
    assert!(counts(&[&protection, &say(&[0x05, 0, 0]), &memory], "1A 0"));
    assert!(!counts(&[&protection, &read], "1A 0"));
    assert!(!counts(&[&protection, &memory, &read], "1A 0"));
    assert!(!counts(&[&protection, &nothing, &read, &memory], "1A 0"));
    assert!(!counts(&[&protection, &read, &nothing, &memory], "1A 0"));
    assert!(!counts(&[&protection, &cycle, &read, &memory], "1A 0"));
    assert!(!counts(&[&protection, &cut(&[0x05, 0]), &memory], "1A 0"));
    assert!(!counts(
        &[&protection, &read, &cut(&[0x02, 0, 0, 9, 7])],
        "1A 0"
    ));
    assert!(!counts(
        &[&protection, &read, &say(&[0x02, 9, 0, 0, 7])],
        "1A 0"
    ));
    let disable = say(&[0x04]);
    assert!(!counts(&[&disable, &protection, &read, &memory], "1A 0"));
    // All others need the read alone.
    assert!(counts(&[&cut(&[0x1A, 1]), &read], "register 4"));
    assert!(counts(&[&say(&[0x01, 0x80]), &read], "register 10"));
    assert!(counts(
        &[&say(&[0xC2, 1, 2, 3, 4, 5, 6, 7, 8, 9]), &read],
        "register 11"
    ));
    assert!(counts(&[&memory, &read], "02 0"));
    assert!(counts(&[&say(&[0x42, 0, 0, 9, 7]), &read], "42 0"));
    assert!(!counts(&[&memory, &nothing, &read], "02 0"));
    assert!(!counts(&[&cut(&[0x02, 0, 0, 9, 7]), &read], "02 0"));
}
