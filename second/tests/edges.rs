//! What counts as a limit reached, on tapes and in probes, and lists that are worked
//! off.

mod common;
use common::*;
use second::edges::{self, Edge, Sent};
use second::image::image_of;
use second::limits;
use second::parts::find;
use second::probe::{Call, Probe, Task};
use second::rng::Rng;
use second::rounds::Rounds;
use second::rows::Row;

/// Whether a transaction shows the edge.
fn shows(chip: &mut Bench, samples: &[u8], edge: Edge) -> bool {
    let before = chip.record;
    chip.send(samples);
    let sent = Sent::new(&before, samples, chip.answer, &chip.memory, &chip.area);
    sent.is_some_and(|sent| sent.shows(edge))
}

/// The same with bytes in the mode in force.
fn says(chip: &mut Bench, bytes: &[u8], edge: Edge) -> bool {
    let samples = on(chip.record.mode, bytes);
    shows(chip, &samples, edge)
}

/// Opcode, address and so many bytes of 7.
fn burst(opcode: u8, address: u32, bytes: usize) -> Vec<u8> {
    join(&[&[opcode], &at(address), &vec![7; bytes]])
}

#[test]
fn codes() {
    for part in MRAMS {
        for code in 0..8 {
            let mut chip = Bench::new(part, 10);
            chip.record.latch = true;
            assert!(says(&mut chip, &[0x87, 0, 0, code, 5], Edge::Code(code)));
            // With the latch down the code has no say.
            chip.record.latch = false;
            assert!(!says(&mut chip, &[0x87, 0, 0, code, 5], Edge::Code(code)));
            // Nor with another fault.
            chip.record.latch = true;
            assert!(!says(&mut chip, &[0x87, 1, 0, code, 5], Edge::Code(code)));
        }
    }
}

#[test]
fn groups() {
    for (part, codes) in [(M, 5), (M32, 7)] {
        for code in 0..codes {
            let group = 16u32 << code;
            let mut chip = Bench::new(part, 12).marked();
            chip.record.configurations[2] = 0x10 | code;
            let (wraps, runs_on) = (Edge::Group(code), Edge::Straight(code));
            let over = burst(0x03, 2 * group - 2, 3);
            assert!(says(&mut chip, &over, wraps));
            assert!(!says(&mut chip, &over, runs_on));
            // Up to the end is not past it, nor is a byte that is not whole.
            let short = on(1, &burst(0x03, 2 * group - 2, 2));
            assert!(!shows(&mut chip, &short, wraps));
            assert!(!shows(&mut chip, &join(&[&short, &[0; 7]]), wraps));
            // Where all bytes are alike nothing shows.
            let mut blank = Bench::new(part, 12);
            blank.record = chip.record;
            assert!(!says(&mut blank, &over, wraps));
            chip.record.configurations[2] = code;
            assert!(says(&mut chip, &over, runs_on));
            assert!(!says(&mut chip, &over, wraps));
        }
    }
    // In a memory of 1,024 bytes a group of so many is no group.
    let mut chip = Bench::m32().marked();
    chip.record.configurations[2] = 0x16;
    assert!(!says(&mut chip, &burst(0x03, 0x3FE, 4), Edge::Group(6)));
    assert_eq!(Edge::Group(6).least_n(find(M32).expect("a part")), 11);
}

#[test]
fn area() {
    for (part, bytes) in [(M, 256u32), (M32, 512)] {
        let mut chip = Bench::new(part, 10).marked();
        chip.record.configurations[1] = 0;
        let end = Edge::AreaEnd(0x42);
        assert!(says(&mut chip, &burst(0x42, bytes - 1, 2), end));
        assert!(!says(&mut chip, &burst(0x42, bytes - 1, 1), end));
        chip.record.area_protection = 0x80;
        assert!(!says(&mut chip, &burst(0x42, bytes - 1, 2), end));
        chip.record.area_protection = 0x00;
        // A read shows it only where the lower half holds other bytes.
        let end = Edge::AreaEnd(0x4B);
        let half = bytes as usize / 2;
        chip.area[0] = 1;
        chip.area[half] = 2;
        assert!(says(&mut chip, &burst(0x4B, bytes - 1, 2), end));
        chip.area[half] = 1;
        assert!(!says(&mut chip, &burst(0x4B, bytes - 1, 2), end));

        for opcode in [0x42, 0x4B] {
            let (last, past) = (Edge::AreaLast(opcode), Edge::AreaPast(opcode));
            assert!(says(&mut chip, &burst(opcode, bytes - 1, 1), last));
            assert!(says(&mut chip, &burst(opcode, bytes, 1), past));
            assert!(!says(&mut chip, &burst(opcode, bytes, 1), last));
            assert!(!says(&mut chip, &burst(opcode, bytes + 1, 1), past));
        }
    }
}

#[test]
fn sections() {
    for (part, section) in [(M, 32u32), (M32, 64)] {
        let mut chip = Bench::new(part, 10);
        for number in 1..8u8 {
            let place = section * u32::from(number);
            let edge = Edge::Section(number);
            for protection in [1u8 << number, !(1 << number)] {
                chip.record.area_protection = protection;
                assert!(says(&mut chip, &burst(0x42, place - 1, 2), edge));
                assert!(!says(&mut chip, &burst(0x42, place, 2), edge));
                assert!(!says(&mut chip, &burst(0x42, place - 2, 2), edge));
            }
            for protection in [0x00, 0xFF] {
                chip.record.area_protection = protection;
                assert!(!says(&mut chip, &burst(0x42, place - 1, 2), edge));
            }
        }
        // In section 1, whose halves would be sections 2 and 3.
        let middle = section + section / 2;
        for (protection, wanted) in [(0x02, true), (0x06, true), (0x04, false), (0x0C, false)] {
            chip.record.area_protection = protection;
            let over = burst(0x42, middle - 1, 2);
            assert!(says(&mut chip, &over, Edge::Middle(wanted)));
            assert!(!says(&mut chip, &over, Edge::Middle(!wanted)));
            assert!(!says(
                &mut chip,
                &burst(0x42, middle, 2),
                Edge::Middle(wanted)
            ));
        }
        for protection in [0x0E, 0x00] {
            chip.record.area_protection = protection;
            let over = burst(0x42, middle - 1, 2);
            assert!(!says(&mut chip, &over, Edge::Middle(protection != 0)));
        }
    }
}

#[test]
fn registers() {
    for part in MRAMS {
        let mut chip = Bench::new(part, 10);
        for address in [0x00, 0x02, 0x03, 0x04, 0x05, 0x30, 0x40] {
            let edge = Edge::Register(address);
            assert!(says(&mut chip, &burst(0x65, address, 9), edge));
            // Its last byte must be whole.
            let bytes = match address {
                0x30 => 4,
                0x40 => 8,
                _ => 1,
            };
            let cut = on(1, &burst(0x65, address, 1 + bytes));
            assert!(!shows(&mut chip, &cut[..cut.len() - 1], edge));
        }
        let serial = Edge::Register(0x80);
        // On part 1 the answer 7 shows it, on part 3 a number that is not 0.
        assert_eq!(says(&mut chip, &burst(0x65, 0x80, 9), serial), part == M);
        chip.record.serial[7] = 1;
        assert!(says(&mut chip, &burst(0x65, 0x80, 9), serial));
    }
}

#[test]
fn shares() {
    for part in MRAMS {
        let mut chip = Bench::new(part, 10);
        for (status, border) in [(0x04, 0x3F0), (0x18, 0x200), (0x24, 0x010), (0x38, 0x200)] {
            chip.record.status = status;
            let edge = Edge::Share(status);
            assert!(says(&mut chip, &burst(0x02, border - 1, 2), edge));
            assert!(!says(&mut chip, &burst(0x02, border - 2, 2), edge));
            assert!(!says(&mut chip, &burst(0x02, border, 2), edge));
        }
        // Nothing or all: over the top.
        for status in [0x00, 0x20, 0x1C, 0x3C] {
            chip.record.status = status;
            assert!(says(&mut chip, &burst(0x02, 0x3FF, 2), Edge::Share(status)));
            assert!(!says(&mut chip, &burst(0x02, 0x3FF, 2), Edge::Share(0x04)));
        }
    }
}

#[test]
fn lists_of_edges() {
    let count = |part: u8| Edge::on_tapes(find(part).expect("a part")).len();
    assert_eq!((count(M), count(P), count(M32)), (57, 0, 61));
    let mut reached = edges::Reached::default();
    let chip = Bench::m32();
    let samples = on(1, &burst(0x65, 0x05, 9));
    let mut record = chip.record;
    record.mode = 1;
    let sent = Sent::new(
        &record,
        &samples,
        second::answer::Answer::Done,
        &chip.memory,
        &chip.area,
    );
    reached.add(sent.as_ref());
    reached.add(None);
    let rows = reached.rows(Edge::on_tapes);
    assert_eq!(rows.len(), 57 + 61);
    let counted: Vec<&Row> = rows.iter().filter(|row| row.count > 0).collect();
    assert_eq!(counted.len(), 1);
    assert_eq!((counted[0].part.number, &counted[0].word[..]), (M32, "05"));
}

/// The words of the limits that one probe shows.
fn limits_of(probe: &Probe) -> Vec<String> {
    let mut reached = limits::Reached::default();
    let outcome = probe.run().expect("a probe that runs");
    reached.add(probe, outcome.answer);
    let rows = reached.rows();
    let counted = rows.iter().filter(|row| row.count > 0);
    counted
        .map(|row| format!("{}: {} {}", row.part.word, row.kind, row.word))
        .collect()
}

#[test]
fn limits_of_probes() {
    let chip = Bench::m32();
    let good = Probe {
        task: Task::Record(Call::Transact),
        goes_on: false,
        seed: 1,
        n: 0,
        image: image_of(&chip.record),
        memory_bytes: 1024,
        area_bytes: 512,
        output_bytes: 8,
        identity_bytes: 0,
        unique_bytes: 0,
        samples: on(1, &[0x06]),
    };
    let area = "M32: bytes of the area";
    let n = "M32: n";
    let memory = "M32: bytes of memory more than there should be";
    let number = "M32: all but the number, which is";
    let code = "M32: wrap code in a record";
    let expected = |words: &[(&str, &str)]| -> Vec<String> {
        words
            .iter()
            .map(|(kind, word)| format!("{kind} {word}"))
            .collect()
    };
    assert_eq!(
        limits_of(&good),
        expected(&[(area, "512"), (n, "10"), (memory, "0"), (code, "0")])
    );
    let mut probe = good.clone();
    probe.area_bytes = 256;
    assert_eq!(limits_of(&probe), expected(&[(area, "256")]));
    // Not where something else is wrong as well.
    probe.memory_bytes = 1023;
    assert!(limits_of(&probe).is_empty());
    probe.area_bytes = 512;
    assert_eq!(limits_of(&probe), expected(&[(memory, "-1")]));
    let mut probe = good.clone();
    probe.output_bytes = 7;
    assert!(limits_of(&probe).is_empty());
    let mut probe = good.clone();
    probe.edit(|record| record.n = 23);
    assert_eq!(limits_of(&probe), expected(&[(n, "23")]));
    probe.edit(|record| record.n = 22);
    assert!(limits_of(&probe).is_empty());
    let mut probe = good.clone();
    probe.edit(|record| record.part = 4);
    assert_eq!(limits_of(&probe), expected(&[(number, "4")]));
    let mut probe = good.clone();
    probe.edit(|record| record.configurations[2] = 0x07);
    assert_eq!(
        limits_of(&probe),
        expected(&[(area, "512"), (n, "10"), (memory, "0"), (code, "7")])
    );
    probe.edit(|record| record.status = 0x80);
    assert!(!limits_of(&probe).contains(&format!("{code} 7")));
    // The largest memory.
    let mut probe = good.clone();
    probe.edit(|record| record.n = 22);
    probe.memory_bytes = 1 << 22;
    probe.samples = on(1, &burst(0x03, 0x3F_FFFF, 2));
    probe.output_bytes = probe.samples.len();
    let large = "M32: opcode, address and status in the largest memory";
    let word = (large, "03 3FFFFF 00");
    assert!(limits_of(&probe).contains(&expected(&[word])[0]));
    probe.edit(|record| record.configurations[2] = 0x16);
    assert!(!limits_of(&probe).contains(&expected(&[word])[0]));
}

#[test]
fn rounds() {
    let mut rng = Rng::new(1);
    let mut list = Rounds::new(vec![1, 2, 3]);
    assert!(list.in_first_round());
    let mut first: Vec<Option<i32>> = (0..3).map(|_| list.take(&mut rng)).collect();
    first.sort_unstable();
    assert_eq!(first, [Some(1), Some(2), Some(3)]);
    assert!(!list.in_first_round());
    // What did not come off has the last turn of the round.
    list.put_back(2);
    assert!(list.in_first_round());
    assert_eq!(list.take(&mut rng), Some(2));
    assert!(!list.in_first_round());
    assert!(list.take(&mut rng).is_some());
    assert!(!list.in_first_round());
    let mut empty: Rounds<u8> = Rounds::new(Vec::new());
    assert!(!empty.in_first_round());
    assert_eq!(empty.take(&mut rng), None);
}
