//! The tape reader, the bench's lines, and the compact and probe formats.

mod common;
use common::*;
use second::compact::{compact_text, digest, hex};
use second::image::image_of;
use second::parts;
use second::probe::{probe_text, Call, Probe, Task};
use second::tape::{bench, Entry, Next, Reader};

const HEADER: &str = "record answer command address wait data rest\n";

fn record(kind: u16, payload: &[u8]) -> Vec<u8> {
    let length = (payload.len() as u16).to_le_bytes();
    join(&[&length, &kind.to_le_bytes(), payload])
}

fn fresh_m() -> Vec<u8> {
    record(3, &[1, 10])
}

/// What the bench prints after its header line.
fn lines(tape: &[u8]) -> String {
    let text = bench(tape);
    assert!(text.starts_with(HEADER));
    assert!(text.ends_with('\n'));
    text[HEADER.len()..].to_string()
}

#[test]
fn an_empty_tape() {
    assert_eq!(lines(&[]), "end 0\n");
}

#[test]
fn cut_headers() {
    for length in 1..4 {
        assert_eq!(lines(&[2, 0, 3, 0][..length]), "bad 0\n");
        let tape = join(&[&fresh_m(), &[0, 0, 2, 0][..length]]);
        assert_eq!(lines(&tape), "1 0 0 0 0 0 0\nbad 6\n");
    }
}

#[test]
fn cut_payloads() {
    let whole = join(&[&fresh_m(), &record(1, &on(1, &[0x06]))]);
    for kept in 6..whole.len() {
        let expected = if kept == 6 { "end 1" } else { "bad 6" };
        let expected = format!("1 0 0 0 0 0 0\n{expected}\n");
        assert_eq!(lines(&whole[..kept]), expected);
    }
    assert_eq!(lines(&whole), "1 0 0 0 0 0 0\n2 0 8 0 0 0 0\nend 2\n");
    assert_eq!(lines(&fresh_m()[..5]), "bad 0\n");
}

#[test]
fn unknown_kinds() {
    for kind in [0, 4, 5, 0x0100, 0x0101, 0x0103, 0x0300, 0xFFFF] {
        assert_eq!(lines(&record(kind, &[1, 10])), "bad 0\n");
        let tape = join(&[&fresh_m(), &record(kind, &[])]);
        assert_eq!(lines(&tape), "1 0 0 0 0 0 0\nbad 6\n");
    }
}

#[test]
fn wrong_payloads() {
    for payload in [
        &[][..],
        &[1],
        &[1, 10, 0],
        &[3, 10, 0],
        &[0, 10],
        &[4, 10],
        &[10, 1],
    ] {
        assert_eq!(lines(&record(3, payload)), "bad 0\n");
    }
    for n in 0..=255u8 {
        for part in [1, 2, 3] {
            let expected = if (10..=15).contains(&n) {
                "1 0 0 0 0 0 0\nend 1\n"
            } else {
                "bad 0\n"
            };
            assert_eq!(lines(&record(3, &[part, n])), expected);
        }
    }
    let tape = join(&[&fresh_m(), &record(2, &[0])]);
    assert_eq!(lines(&tape), "1 0 0 0 0 0 0\nbad 6\n");
}

#[test]
fn longest_transaction() {
    let tape = join(&[&fresh_m(), &record(1, &[0; 4096])]);
    assert_eq!(lines(&tape), "1 0 0 0 0 0 0\n2 11 8 0 0 0 4088\nend 2\n");
    let tape = join(&[&fresh_m(), &record(1, &[0; 4097])]);
    assert_eq!(lines(&tape), "1 0 0 0 0 0 0\nbad 6\n");
}

#[test]
fn nothing_before_a_fresh_chip() {
    assert_eq!(lines(&record(2, &[])), "bad 0\n");
    assert_eq!(lines(&record(1, &[])), "bad 0\n");
    assert_eq!(lines(&join(&[&record(2, &[]), &fresh_m()])), "bad 0\n");
    // A bad fresh chip makes none.
    let tape = join(&[&record(3, &[1, 9]), &record(2, &[])]);
    assert_eq!(lines(&tape), "bad 0\n");
}

#[test]
fn a_second_fresh_chip() {
    let tape = join(&[
        &fresh_m(),
        &record(1, &on(1, &[0x38])),
        &record(1, &on(4, &[0x66])),
        &record(3, &[2, 11]),
        &record(1, &on(1, &[0x99])),
        &record(1, &on(1, &[0x35])),
        &record(3, &[1, 10]),
        &record(1, &on(1, &[0x05, 0])),
    ]);
    assert_eq!(
        lines(&tape),
        "1 0 0 0 0 0 0\n2 0 8 0 0 0 0\n3 0 2 0 0 0 0\n4 0 0 0 0 0 0\n\
         5 12 8 0 0 0 0\n6 0 8 0 0 0 0\n7 0 0 0 0 0 0\n8 0 8 0 0 8 0\nend 8\n"
    );
}

#[test]
fn a_sample_of_16() {
    let tape = join(&[&fresh_m(), &record(1, &[0, 16]), &record(1, &[])]);
    assert_eq!(
        lines(&tape),
        "1 0 0 0 0 0 0\n2 2 0 0 0 0 0\n3 4 0 0 0 0 0\nend 3\n"
    );
}

#[test]
fn longest_tape() {
    let mut tape = fresh_m();
    while tape.len() + 4100 <= 65_536 {
        tape.extend(record(1, &[0; 4096]));
    }
    let left = 65_536 - tape.len();
    tape.extend(record(1, &vec![0; left - 4]));
    assert_eq!(tape.len(), 65_536);
    assert!(lines(&tape).ends_with("end 17\n"));
    tape.push(0);
    assert_eq!(lines(&tape), "bad 0\n");
    // Even when all its records are good.
    tape.extend([0, 2, 0]);
    assert_eq!(lines(&tape), "bad 0\n");
    assert_eq!(lines(&vec![0; 65_536]), "bad 0\n");
}

#[test]
fn the_reader_stays_at_a_bad_record() {
    let tape = join(&[&fresh_m(), &[9]]);
    let mut reader = Reader::new(&tape);
    let part = &parts::M;
    assert_eq!(reader.take(), Next::Entry(Entry::Fresh { part, n: 10 }));
    assert_eq!(reader.take(), Next::Bad(6));
    assert_eq!(reader.take(), Next::Bad(6));
    let good = fresh_m();
    let mut reader = Reader::new(&good);
    reader.take();
    assert_eq!(reader.take(), Next::End);
    assert_eq!(reader.take(), Next::End);
}

#[test]
fn digests() {
    assert_eq!(digest(&[]), 1);
    assert_eq!(digest(&[0]), 65_600);
    assert_eq!(digest(&[0, 0]), 8_327_110);
    assert_ne!(digest(&[0]), digest(&[0, 0]));
    assert_ne!(digest(&[1, 2]), digest(&[2, 1]));
    assert_eq!(hex(&[0x0A, 0xF5]), "0AF5");
}

fn bundle(tapes: &[&[u8]]) -> Vec<u8> {
    let mut bytes = Vec::new();
    for tape in tapes {
        bytes.extend((tape.len() as u32).to_le_bytes());
        bytes.extend(*tape);
    }
    bytes
}

#[test]
fn compact_lines() {
    let tape = join(&[
        &record(3, &[2, 10]),
        &record(1, &join(&[&on(1, &[0x02, 0, 0, 9, 0xA5])])),
        &record(1, &join(&[&on(1, &[0x03, 0, 0, 9]), &[0; 8]])),
        &record(1, &[16]),
        &record(1, &on(1, &[0xC0])),
        &record(2, &[]),
        &[7],
    ]);
    let mut memory = vec![0; 1024];
    let zero = format!("{:08X}", digest(&memory));
    memory[9] = 0xA5;
    let held = format!("{:08X}", digest(&memory));
    let spare = [0xA5; 3];
    let after_write = format!("{:08X}", digest(&join(&[&[0; 40], &spare])));
    let read = [0x22, 0x20, 0x22, 0x20, 0x20, 0x22, 0x20, 0x22];
    let after_read = format!("{:08X}", digest(&join(&[&[0; 32], &read, &spare])));
    let untouched = format!("{:08X}", digest(&[0xA5; 4]));
    let after_toggle = format!("{:08X}", digest(&join(&[&[0; 8], &spare])));
    let registers = "00000000000060 0000000000000000";
    let expected = [
        format!("tape 1 {}", tape.len()),
        format!("1 0 0 0 0 0 0 P 10 1 0000 {registers} {zero} 00000001 - - -"),
        format!("2 0 8 24 0 8 0 P 10 1 0000 {registers} {held} 00000001 {after_write} - -"),
        format!(
            "3 0 8 24 0 8 0 P 10 1 0000 {registers} {held} 00000001 {after_read} 32 {}",
            hex(&read)
        ),
        format!("4 2 0 0 0 0 0 P 10 1 0000 {registers} {held} 00000001 {untouched} - -"),
        format!("5 0 8 0 0 0 0 P 10 1 0001 {registers} {held} 00000001 {after_toggle} - -"),
        format!("6 0 0 0 0 0 0 P 10 1 0000 {registers} {zero} 00000001 - - -"),
        format!("bad {}", tape.len() - 1),
        String::from("tape 2 0"),
        String::from("end 0"),
        String::new(),
    ]
    .join("\n");
    assert_eq!(compact_text(&bundle(&[&tape, &[]])), expected);
}

#[test]
fn compact_line_of_m() {
    let tape = join(&[
        &record(3, &[1, 10]),
        &record(1, &on(1, &[0x06])),
        &record(1, &on(1, &[0xC2, 1, 2, 3, 4, 5, 6, 7, 0xF8])),
        &record(1, &on(1, &[0x38])),
        &record(1, &on(4, &[0x66])),
    ]);
    let text = compact_text(&bundle(&[&tape]));
    let rows: Vec<&str> = text.lines().collect();
    let memory = format!("{:08X}", digest(&[0; 1024]));
    let area = format!("{:08X}", digest(&[0; 256]));
    let output = format!("{:08X}", digest(&[0, 0, 0xA5, 0xA5, 0xA5]));
    assert_eq!(
        rows[5],
        format!(
            "5 0 2 0 0 0 0 M 10 4 0100 00000008000500 01020304050607F8 {memory} {area} {output} - -"
        )
    );
    assert_eq!(rows[6], "end 5");
}

#[test]
fn cut_bundles() {
    assert_eq!(compact_text(&[]), "");
    assert_eq!(compact_text(&[1, 0, 0]), "cut\n");
    assert_eq!(compact_text(&[1, 0, 0, 0]), "cut\n");
    let mut bytes = bundle(&[&[]]);
    bytes.extend([255, 255, 255, 255, 1]);
    assert_eq!(compact_text(&bytes), "tape 1 0\nend 0\ncut\n");
    let long = vec![0; 65_537];
    assert_eq!(compact_text(&bundle(&[&long])), "tape 1 65537\nbad 0\n");
}

#[test]
fn probe_lines() {
    let mut chip = Bench::m();
    chip.record.status = 0x04;
    chip.record.latch = true;
    let probe = Probe {
        task: Task::Record(Call::Transact),
        goes_on: false,
        seed: 0xFE,
        n: 0,
        image: image_of(&chip.record),
        memory_bytes: 1024,
        area_bytes: 256,
        output_bytes: 9,
        identity_bytes: 0,
        unique_bytes: 0,
        samples: on(1, &[0x66]),
    };
    let mut file = probe.to_bytes();
    assert_eq!(file.len(), 32 + 128 + 8);
    let memory: Vec<u8> = (0..1024u64)
        .map(|i| (0xFE + i * 7 + i / 251) as u8)
        .collect();
    let area: Vec<u8> = (0..256u64).map(|i| (0xFE + 3 + i * 5) as u8).collect();
    let mut output: Vec<u8> = (0..9u64).map(|i| (0xFE + 11 + i * 13) as u8).collect();
    let kept = output.clone();
    output[..8].fill(0);
    let tail = |latch: u8, armed: u8, output: &[u8]| {
        format!(
            "010A000004000008000500010{latch}0{armed}0000E6011501000000008172635445362718{} {:08X} {:08X} {:08X}",
            "00".repeat(96),
            digest(&memory),
            digest(&area),
            digest(output)
        )
    };
    let mut cycle = Probe {
        task: Task::Record(Call::PowerCycle),
        samples: vec![],
        ..probe.clone()
    };
    cycle.edit(|record| record.latch = false);
    file.extend(cycle.to_bytes());
    let short = Probe {
        output_bytes: 7,
        ..probe.clone()
    };
    file.extend(short.to_bytes());
    let expected = format!(
        "1 0 8 0 0 0 0 {}\n2 0 0 0 0 0 0 {}\n3 1 0 0 0 0 0 {}\n",
        tail(1, 1, &output),
        tail(0, 0, &kept),
        tail(1, 0, &kept[..7])
    );
    assert_eq!(probe_text(&file), expected);
    // Cut anywhere in the last probe.
    let first_two: String = expected.lines().take(2).map(|l| format!("{l}\n")).collect();
    let two = probe.to_bytes().len() + cycle.to_bytes().len();
    for kept in two + 1..file.len() {
        assert_eq!(probe_text(&file[..kept]), format!("{first_two}cut\n"));
    }
    assert_eq!(probe_text(&[]), "");
    assert_eq!(Probe::take(&mut &probe.to_bytes()[..]), Some(probe));
}
