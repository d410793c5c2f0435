//! Examples (a) to (l) of document 01, the sample tape, and the slips it names.

mod common;
use common::*;

#[test]
fn a_write_enable_on_two_and_four_wires() {
    assert_eq!(second::wires::spread(0x06, 2), [0, 0, 1, 2]);
    assert_eq!(second::wires::spread(0x06, 4), [0, 6]);
    let mut chip = Bench::m();
    chip.record.mode = 2;
    assert_eq!(chip.full(&[0, 0, 1, 2]), (0, five(4, 0, 0, 0, 0)));
    assert!(chip.record.latch);
    let mut chip = Bench::m();
    chip.record.mode = 4;
    assert_eq!(chip.full(&[0, 6]), (0, five(2, 0, 0, 0, 0)));
    assert!(chip.record.latch);
}

#[test]
fn b_fast_read_of_p_on_four_wires() {
    let mut chip = Bench::p();
    chip.record.mode = 4;
    chip.memory[0x123] = 0xA5;
    let samples = join(&[&on(4, &join(&[&[0x0B], &at(0x123)])), &[0; 4], &[0; 2]]);
    assert_eq!(chip.full(&samples), (0, five(2, 6, 4, 2, 0)));
    assert_eq!(chip.output[12..14], [0xFA, 0xF5]);
    assert_eq!(chip.output[..12], [0; 12]);
}

#[test]
fn c_quad_read_of_p_in_mode_1() {
    let mut chip = Bench::p();
    chip.memory[0x2FE] = 0x3C;
    let samples = join(&[&on(1, &[0xEB]), &on(4, &at(0x2FE)), &[0; 6], &[0; 2]]);
    assert_eq!(chip.full(&samples), (0, five(8, 6, 6, 2, 0)));
    assert_eq!(chip.driven(), [0xF3, 0xFC]);
}

#[test]
fn d_read_of_p_on_one_wire() {
    let mut chip = Bench::p();
    chip.memory[7] = 0xA5;
    let samples = join(&[&on(1, &[0x03, 0, 0, 7]), &[0; 8]]);
    assert_eq!(chip.full(&samples), (0, five(8, 24, 0, 8, 0)));
    assert_eq!(
        chip.output[32..40],
        [0x22, 0x20, 0x22, 0x20, 0x20, 0x22, 0x20, 0x22]
    );
}

#[test]
fn e_any_register_of_m_on_two_wires() {
    let mut chip = Bench::m();
    chip.record.mode = 2;
    let samples = join(&[&on(2, &[0x65, 0, 0, 3]), &[0; 4], &[0; 4]]);
    assert_eq!(chip.full(&samples), (0, five(4, 12, 4, 4, 0)));
    assert_eq!(chip.driven(), out(2, &[0x08]));
}

#[test]
fn f_burst_of_p_in_a_group_of_16() {
    let mut chip = Bench::p();
    chip.record.mr0 = 0x00;
    assert_eq!(chip.write(0x02, 0x0E, &[1, 2, 3, 4]), 0);
    assert_eq!(chip.memory[0x0E..0x10], [1, 2]);
    assert_eq!(chip.memory[0x00..0x02], [3, 4]);
    assert_eq!(chip.memory[0x10..0x12], [0, 0]);
}

#[test]
fn g_burst_of_m_past_the_top() {
    let mut chip = Bench::m();
    assert_eq!(chip.write(0x02, 0x3FE, &[1, 2, 3, 4]), 0);
    assert_eq!(chip.memory[0x3FE..], [1, 2]);
    assert_eq!(chip.memory[..3], [3, 4, 0]);
}

#[test]
fn h_burst_into_a_protected_top() {
    let mut chip = Bench::m();
    chip.record.status = 0x04;
    assert_eq!(chip.write(0x02, 0x3EE, &[1, 2, 3, 4]), 0);
    assert_eq!(chip.memory[0x3EE..0x3F2], [1, 2, 0, 0]);
    for place in 0..1024u32 {
        let expected = if place < 0x3F0 { 0 } else { 9 };
        assert_eq!(chip.write(0x02, place, &[9]), expected);
    }
}

#[test]
fn i_burst_within_a_protected_top() {
    let mut chip = Bench::m();
    chip.record.status = 0x04;
    assert_eq!(chip.write(0x02, 0x3F0, &[1, 2]), 9);
    assert!(chip.memory.iter().all(|&byte| byte == 0));
}

#[test]
fn j_no_clocks() {
    for mut chip in [Bench::m(), Bench::p()] {
        assert_eq!(chip.full(&[]), (4, five(0, 0, 0, 0, 0)));
    }
}

#[test]
fn k_write_enable_with_nine_clocks() {
    let mut chip = Bench::m();
    let samples = join(&[&on(1, &[0x06]), &[0]]);
    assert_eq!(chip.full(&samples), (11, five(8, 0, 0, 0, 1)));
    assert!(!chip.record.latch);
}

#[test]
fn l_first_address_past_the_memory() {
    let mut chip = Bench::m().marked();
    assert_eq!(chip.write(0x02, 0x400, &[1]), 7);
    assert_eq!(chip.write(0x02, 0x3FF, &[1]), 0);
    assert_eq!(chip.write(0x03, 0x400, &[0]), 7);
    assert_eq!(chip.write(0x03, 0x3FF, &[0]), 0);
    assert_eq!(chip.driven(), out(1, &[1]));
}

#[test]
fn the_sample_tape() {
    let tape = [
        0x02, 0x00, 0x03, 0x00, 0x01, 0x0A, 0x08, 0x00, 0x01, 0x00, 0x00, 0x00, 0x00, 0x00, 0x00,
        0x01, 0x01, 0x00, 0x00, 0x00, 0x02, 0x00,
    ];
    assert_eq!(
        second::tape::bench(&tape),
        "record answer command address wait data rest\n\
         1 0 0 0 0 0 0\n\
         2 0 8 0 0 0 0\n\
         3 0 0 0 0 0 0\n\
         end 3\n"
    );
}

#[test]
fn slip_waits_are_clocks_not_bytes() {
    let mut chip = Bench::m().marked();
    chip.record.configurations[1] = 3;
    let samples = join(&[&on(1, &[0x4B, 0, 0, 5]), &[0; 3], &[0; 8]]);
    assert_eq!(chip.full(&samples), (0, five(8, 24, 3, 8, 0)));
    assert_eq!(chip.driven(), out(1, &[5 * 3 + 1]));
    let mut chip = Bench::m();
    chip.record.mode = 4;
    let samples = join(&[&on(4, &[0x65, 0, 0, 5]), &[0; 2], &[0; 2]]);
    assert_eq!(chip.full(&samples), (0, five(2, 6, 2, 2, 0)));
    assert_eq!(chip.driven(), [0xF0, 0xF5]);
}

#[test]
fn slip_writes_of_m_never_wrap_like_reads() {
    let mut chip = Bench::m();
    chip.record.configurations[2] = 0x10;
    assert_eq!(chip.write(0x02, 0x0F, &[1, 2]), 0);
    assert_eq!(chip.memory[0x0F..0x11], [1, 2]);
    assert_eq!(chip.memory[0], 0);
    assert_eq!(chip.write(0x03, 0x0F, &[0, 0]), 0);
    assert_eq!(chip.driven(), out(1, &[1, 0]));
}

#[test]
fn slip_two_wire_pairs_are_not_reversed() {
    let mut chip = Bench::m();
    chip.record.mode = 2;
    chip.record.latch = true;
    // 1Ah with B4h: pairs 00 01 10 10 and 10 11 01 00.
    assert_eq!(chip.send(&[0, 1, 2, 2, 2, 3, 1, 0]), 0);
    assert_eq!(chip.record.area_protection, 0xB4);
    chip.say_and(&[0x14], 4);
    assert_eq!(chip.driven(), [0x32, 0x33, 0x31, 0x30]);
}

#[test]
fn slip_a_short_write_keeps_the_latch() {
    let mut chip = Bench::m();
    chip.record.configurations[3] = 0x04;
    chip.record.latch = true;
    let mut samples = on(1, &[0x02, 0, 0, 0]);
    samples.extend([1; 7]);
    assert_eq!(chip.full(&samples), (4, five(8, 24, 0, 7, 0)));
    assert!(chip.record.latch);
    let mut samples = on(1, &[0x87, 0, 8, 0]);
    samples.extend([0; 7]);
    assert_eq!(chip.full(&samples), (4, five(8, 0, 0, 31, 0)));
    assert!(chip.record.latch);
}

#[test]
fn slip_a_burst_goes_on_past_protected_bytes() {
    let mut chip = Bench::m();
    // The lower 1/64, so the burst leaves the protected part again.
    chip.record.status = 0x24;
    assert_eq!(chip.write(0x02, 0x3FE, &[7; 20]), 0);
    assert_eq!(chip.memory[0x3FE..], [7, 7]);
    assert_eq!(chip.memory[..16], [0; 16]);
    assert_eq!(chip.memory[16..19], [7, 7, 0]);
    // And a section in the middle of the area.
    chip.record.area_protection = 0x02;
    assert_eq!(chip.write(0x42, 0x1F, &[5; 34]), 0);
    assert_eq!(chip.area[0x1F], 5);
    assert_eq!(chip.area[0x20..0x40], [0; 32]);
    assert_eq!(chip.area[0x40..0x42], [5, 0]);
}
