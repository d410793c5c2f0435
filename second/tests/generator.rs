//! The generator: same seed, same bytes; and it reaches what it should.

use second::answer::Answer;
use second::compact::{digest, take_tape};
use second::coverage::{of_bundle, of_images, of_probes};
use second::device::Record;
use second::generate::{bundle, tape};
use second::image::image_of;
use second::images::{image_list, images};
use second::parts::Family;
use second::probe::{Probe, Runner, Task};
use second::spoil::{probe_list, probes};
use second::tape::{run, Ending, Entry};
use second::wires::collect;

fn tapes_of(bundle: &[u8]) -> Vec<&[u8]> {
    let mut left = bundle;
    let mut tapes = Vec::new();
    while !left.is_empty() {
        tapes.push(take_tape(&mut left).expect("a whole bundle"));
    }
    tapes
}

#[test]
fn same_seed_same_bytes() {
    assert_eq!(tape(5, 80), tape(5, 80));
    assert_eq!(bundle(5, 6, 30), bundle(5, 6, 30));
    assert_eq!(probes(5, 60), probes(5, 60));
    assert_eq!(images(5, 60), images(5, 60));
    assert_ne!(tape(5, 80), tape(6, 80));
    assert_ne!(bundle(5, 6, 30), bundle(6, 6, 30));
    assert_ne!(probes(5, 60), probes(6, 60));
    assert_ne!(images(5, 60), images(6, 60));
}

/// Fixed digests show that no machine makes other bytes.
#[test]
fn same_bytes_on_every_machine() {
    assert_eq!(format!("{:08X}", digest(&tape(1, 100))), TAPE);
    assert_eq!(format!("{:08X}", digest(&bundle(1, 20, 40))), BUNDLE);
    assert_eq!(format!("{:08X}", digest(&probes(1, 200))), PROBES);
    assert_eq!(format!("{:08X}", digest(&images(1, 200))), IMAGES);
}
const TAPE: &str = "C102CFC0";
const BUNDLE: &str = "283AAE22";
const PROBES: &str = "6F781D5C";
const IMAGES: &str = "3E7195D1";

#[test]
fn a_tape_has_about_as_many_records_as_asked() {
    assert!(tape(1, 0).is_empty());
    for seed in 0..200 {
        let made = tape(seed, 50);
        assert!(made.len() <= 65_536);
        let mut records = 0;
        let ending = run(&made, &mut |_| records += 1);
        match ending {
            Ending::End(told) => assert!(told == records && (50..=62).contains(&records)),
            Ending::Bad(_) => assert!(records <= 62),
        }
    }
    // However many are asked for, a tape stays a tape.
    for seed in 0..4 {
        let made = tape(seed, 1_000_000);
        assert!((61_000..=65_536).contains(&made.len()));
    }
}

#[test]
fn coverage_of_the_default_bundle() {
    for seed in 1..=5 {
        let (text, complete) = of_bundle(seed, 60, 60);
        assert!(complete, "{text}");
        assert!(text.ends_with("coverage complete\n"));
    }
    let (text, complete) = of_bundle(1, 1, 10);
    assert!(!complete);
    assert!(text.ends_with("coverage incomplete\n"));
}

#[test]
fn coverage_of_the_default_probes() {
    for seed in 1..=5 {
        let (text, complete) = of_probes(seed, 2000);
        assert!(complete, "{text}");
        assert!(text.ends_with("coverage complete\n"));
    }
    let (text, complete) = of_probes(1, 10);
    assert!(!complete);
    assert!(text.ends_with("coverage incomplete\n"));
}

#[test]
fn coverage_of_the_default_images() {
    for seed in 1..=20 {
        let (text, complete) = of_images(seed, 1000);
        assert!(complete, "{text}");
        assert!(text.ends_with("coverage complete\n"));
    }
    let (text, complete) = of_images(1, 100);
    assert!(!complete);
    assert!(text.ends_with("coverage incomplete\n"));
}

/// The states and turns that a comparison should meet.
#[test]
fn a_bundle_reaches_deep_states() {
    let bytes = bundle(1, 300, 50);
    let (mut clocks, mut transactions) = (0usize, 0usize);
    let mut longest = 0;
    let mut seen_n = [[false; 16]; 4];
    // By part, M and M32.
    let mut protected_codes = [[[0u32; 8]; 2]; 2];
    let mut write_modes = [[0u32; 3]; 2];
    let mut wraps = [[0u32; 7]; 2];
    let mut waits = [0u32; 16];
    let mut groups = [0u32; 4];
    let (mut toggled, mut resets, mut slept, mut unarmed, mut second_chip) = (0, 0, 0, 0, 0);
    let mut bad = 0;
    for tape in tapes_of(&bytes) {
        let ending = run(tape, &mut |step| {
            let record = &step.chip.record;
            seen_n[usize::from(record.part)][usize::from(record.n)] = true;
            match (step.entry, &step.before) {
                (Entry::Fresh { .. }, Some(_)) => second_chip += 1,
                (Entry::Transaction(samples), Some(before)) => {
                    transactions += 1;
                    clocks += samples.len();
                    longest = longest.max(samples.len());
                    let (answer, counts) = (step.answer, step.counts);
                    match step.chip.part.family {
                        Family::Mram => {
                            let part = usize::from(before.part / 2);
                            // Memory writes that got as far as the protection.
                            let opcode = collect(samples, before.mode).first().copied();
                            let as_far = matches!(answer, Answer::Done | Answer::Protected);
                            if opcode == Some(0x02) && as_far {
                                let bottom = usize::from(before.status >> 5 & 1);
                                let code = usize::from(before.status >> 2 & 7);
                                protected_codes[part][bottom][code] += 1;
                            }
                            write_modes[part][usize::from(before.configurations[3] & 3)] += 1;
                            let done = answer == Answer::Done;
                            if done && counts.address == 24 && before.mode == 1 {
                                waits[counts.wait as usize] += 1;
                            }
                            if before.configurations[2] & 0x10 != 0 && counts.data > 0 {
                                wraps[part][usize::from(before.configurations[2] & 7)] += 1;
                            }
                            slept += u32::from(answer == Answer::Asleep);
                        }
                        Family::Psram => {
                            groups[usize::from(before.mr0 >> 5)] += u32::from(counts.data > 16);
                            toggled += u32::from(before.toggle && counts.data > 0);
                        }
                    }
                    let reset = before.armed && answer == Answer::Done && !record.armed;
                    resets += u32::from(reset && before.mode != record.mode);
                    unarmed += u32::from(answer == Answer::Unarmed);
                }
                _ => {}
            }
        });
        bad += u32::from(matches!(ending, Ending::Bad(_)));
    }
    assert!(clocks / transactions < 60, "{clocks} in {transactions}");
    assert_eq!(longest, 4096);
    for part in [1, 2, 3] {
        assert!(seen_n[part][10..=15].iter().all(|&seen| seen));
    }
    let least = protected_codes.iter().flatten().flatten().min();
    assert!(least > Some(&5), "{protected_codes:?}");
    assert!(write_modes.iter().flatten().all(|&count| count > 200));
    assert!(waits.iter().all(|&count| count > 0), "{waits:?}");
    // Part M has five codes, M32 seven.
    assert_eq!(wraps[0][5..], [0, 0]);
    let codes = wraps[0][..5].iter().chain(&wraps[1]);
    assert!(codes.min() > Some(&20), "{wraps:?}");
    assert!(groups.iter().all(|&count| count > 20), "{groups:?}");
    for count in [toggled, resets, slept, unarmed, second_chip, bad] {
        assert!(count > 10);
    }
    assert!(bad < 150);
}

#[test]
fn rare_tapes_come_in_a_long_bundle() {
    let bytes = bundle(3, 1500, 1);
    let tapes = tapes_of(&bytes);
    assert_eq!(tapes.len(), 1500);
    let count =
        |wanted: &dyn Fn(usize) -> bool| tapes.iter().filter(|tape| wanted(tape.len())).count();
    assert!(count(&|length| length == 0) > 0);
    assert!(count(&|length| length == 65_536) > 0);
    assert!(count(&|length| length > 65_536) > 0);
    for tape in tapes.iter().filter(|tape| tape.len() == 65_536) {
        assert!(matches!(run(tape, &mut |_| {}), Ending::End(_)));
    }
}

#[test]
fn probes_keep_to_their_limits() {
    let list = probe_list(1, 3000);
    let clocks = |number: usize| list.iter().filter(|p| p.samples.len() == number).count();
    assert!(clocks(65_535) > 0 && clocks(65_536) > 0);
    for probe in &list {
        assert!(probe.memory_bytes <= 1 << 22);
        assert!(probe.area_bytes <= 600);
        let fresh = matches!(probe.task, Task::Fresh(_));
        assert!(fresh || probe.output_bytes <= probe.samples.len() + 7);
        // Over a record flags are 0 or 1, and spare bytes are 0.
        if let (Task::Record(_), Some(record)) = (probe.task, probe.record()) {
            assert_eq!(probe.image, image_of(&record));
        }
    }
    let short = |p: &&Probe| p.output_bytes + 1 == p.samples.len();
    assert!(list.iter().filter(short).count() > 5);
    let records: Vec<Record> = list.iter().filter_map(Probe::record).collect();
    for n in [9, 10, 21, 22, 23] {
        assert!(records.iter().any(|record| record.n == n));
    }
    for part in 0..5 {
        assert!(records.iter().any(|record| record.part == part));
    }
    // Filling the largest memory takes its time, so that few probes have one.
    let largest = |p: &&Probe| p.memory_bytes == 1 << 22;
    assert!((10..40).contains(&list.iter().filter(largest).count()));
}

#[test]
fn calls_over_images_keep_to_their_limits() {
    let list = image_list(1, 3000);
    let mut runner = Runner::default();
    let mut lengths = [0; 257];
    for probe in &list {
        assert!(!matches!(probe.task, Task::Record(_)));
        assert!(probe.memory_bytes <= 1 << 16);
        assert!(probe.area_bytes <= 600);
        assert!(probe.samples.len() <= 70_000);
        assert!(probe.image.len() <= 256);
        assert!(!probe.goes_on || probe.image.is_empty());
        lengths[probe.image.len()] += 1;
        assert!(runner.run(probe).is_some());
    }
    for length in [0, 127, 128, 129, 130, 256] {
        assert!(lengths[length] > 0, "{length}");
    }
    let clocks = |number: usize| list.iter().filter(|p| p.samples.len() == number).count();
    assert!(clocks(65_536) > 5);
    // Memories of more than one size, the largest among them.
    let memory = |bytes: usize| list.iter().filter(|p| p.memory_bytes == bytes).count();
    assert!((10..=16).all(|n| memory(1 << n) > 0));
}
