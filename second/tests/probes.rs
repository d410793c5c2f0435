//! Probes of open transactions: the format, probes that go on from each other, and
//! what the generator and the coverage make of them.

mod common;

use common::{at, join, on, Bench};
use second::answer::Answer::{self, Done, Sample, Size, State, Turn};
use second::chunked;
use second::compact::digest;
use second::courses::{answered, through};
use second::device::{state_fits, Record, MOST_CLOCKS};
use second::facts::Open;
use second::image::{image_of, place, IMAGE_BYTES};
use second::parts::{find, Part, PARTS};
use second::probe::{probe_text, Call, Over, Probe, Runner, Task, CALLS};
use second::refusals::{checks, refusals, Wanted};
use second::rng::Rng;
use second::spoil::{probe_list, probes};
use second::spots::{Phase, Spot, Why};
use second::standing::{damaged_probe, damages, largest_probe, standing_probe, Damage};

/// A probe on part 1 with none open.
fn probe(call: Call, samples: &[u8]) -> Probe {
    Probe {
        task: Task::Record(call),
        goes_on: false,
        seed: 9,
        n: 0,
        image: image_of(&Bench::m().record),
        memory_bytes: 1024,
        area_bytes: 256,
        output_bytes: samples.len(),
        identity_bytes: 0,
        unique_bytes: 0,
        samples: samples.to_vec(),
    }
}

fn going_on(call: Call, samples: &[u8]) -> Probe {
    Probe {
        goes_on: true,
        image: Vec::new(),
        ..probe(call, samples)
    }
}

/// The record of a probe that has one.
fn record_of(probe: &Probe) -> Record {
    probe.record().expect("an image of the right length")
}

fn answer_of(probe: &Probe) -> Answer {
    probe.run().expect("a probe that runs").answer
}

fn text_of(list: &[Probe]) -> String {
    let bytes: Vec<u8> = list.iter().flat_map(Probe::to_bytes).collect();
    probe_text(&bytes)
}

#[test]
fn head_of_a_probe() {
    let whole = Probe {
        task: Task::Fresh(find(3).unwrap()),
        n: 0x16,
        image: vec![0xC1; 5],
        memory_bytes: 0x01_0203,
        area_bytes: 0x0405,
        output_bytes: 0x0708,
        identity_bytes: 2,
        unique_bytes: 1,
        ..probe(Call::Feed, &[1, 2, 3])
    };
    let bytes = whole.to_bytes();
    assert_eq!(bytes[..4], [23, 0, 9, 0x16]);
    assert_eq!(bytes[4..12], [3, 2, 1, 0, 5, 4, 0, 0]);
    assert_eq!(bytes[12..20], [3, 0, 0, 0, 8, 7, 0, 0]);
    assert_eq!(bytes[20..32], [5, 0, 0, 0, 2, 0, 0, 0, 1, 0, 0, 0]);
    assert_eq!(bytes[32..], [0xC1, 0xC1, 0xC1, 0xC1, 0xC1, 1, 2, 3]);
    assert_eq!(Probe::take(&mut &bytes[..]), Some(whole));
    for (call, number) in CALLS.into_iter().zip(1..) {
        let plain = probe(call, &[7]);
        let mut bytes = plain.to_bytes();
        assert_eq!(bytes.len(), 32 + 128 + 1);
        assert_eq!(bytes[..4], [number, 0, 9, 0]);
        assert_eq!(bytes[20..32], [128, 0, 0, 0, 0, 0, 0, 0, 0, 0, 0, 0]);
        assert_eq!(bytes[32..160], plain.image);
        assert_eq!(Probe::take(&mut &bytes[..]), Some(plain.clone()));
        bytes[0] += 10;
        let over_image = Probe::take(&mut &bytes[..]).unwrap();
        assert_eq!(over_image.task, Task::Image(call));
        assert_eq!(over_image, plain.over_image());
    }
    let bytes = going_on(Call::Close, &[]).to_bytes();
    assert_eq!(bytes.len(), 32);
    assert_eq!(bytes[..4], [5, 1, 9, 0]);
    assert!(bytes[12..].iter().all(|&byte| byte == 0));
}

/// Which numbers name a call.
#[test]
fn numbers_of_calls() {
    for number in 0..=255u8 {
        let known = matches!(number, 1..=5 | 11..=15 | 21..=23);
        let task = Task::of(number);
        assert_eq!(task.is_some(), known);
        assert_eq!(task.map(Task::number), known.then_some(number));
    }
}

/// A file that asks for what there is not.
#[test]
fn probes_that_do_not_run() {
    let first = probe(Call::Open, &[]);
    let line = text_of(std::slice::from_ref(&first));
    let cut = format!("{line}cut\n");
    assert_eq!(text_of(&[going_on(Call::Close, &[])]), "cut\n");
    for (memory_bytes, area_bytes) in [(1025, 256), (1024, 257)] {
        let more = Probe {
            memory_bytes,
            area_bytes,
            ..going_on(Call::Close, &[])
        };
        assert_eq!(text_of(&[first.clone(), more]), cut);
    }
    let after_first = |change: &dyn Fn(&mut Vec<u8>)| {
        let mut bytes = first.to_bytes();
        change(&mut bytes);
        probe_text(&join(&[&first.to_bytes(), &bytes]))
    };
    for (place, byte) in [
        (0, 0),
        (0, 6),
        (0, 10),
        (0, 16),
        (0, 20),
        (0, 24),
        (0, 31),
        (1, 2),
    ] {
        assert_eq!(after_first(&|bytes| bytes[place] = byte), cut);
    }
    // An image that goes on, or is too long, or is none of a record.
    assert_eq!(after_first(&|bytes| bytes[1] = 1), cut);
    for length in [0, 127, 129, 256, 257] {
        let with_length = |bytes: &mut Vec<u8>| {
            bytes[20..24].copy_from_slice(&u32::to_le_bytes(length));
            bytes.resize(32 + length as usize, 0);
        };
        assert_eq!(after_first(&with_length), cut);
        let over_image = after_first(&|bytes| {
            with_length(bytes);
            bytes[0] = 13;
        });
        assert_eq!(over_image == cut, length == 257);
    }
    // Fewer samples than the two numbers have.
    let fresh = |identity: u32, unique: u32, samples: usize| {
        after_first(&|bytes| {
            bytes[0] = 21;
            bytes[12] = samples as u8;
            bytes[24..28].copy_from_slice(&identity.to_le_bytes());
            bytes[28..32].copy_from_slice(&unique.to_le_bytes());
            bytes.extend(vec![0; samples]);
        })
    };
    assert_ne!(fresh(4, 8, 12), cut);
    assert_ne!(fresh(4, 8, 13), cut);
    assert_eq!(fresh(4, 8, 11), cut);
    assert_eq!(fresh(u32::MAX, 1, 12), cut);
    assert_eq!(fresh(1, u32::MAX, 12), cut);
    assert_eq!(fresh(u32::MAX, u32::MAX, 12), cut);
}

/// A call over the record of an image that has not the length of one.
#[test]
fn a_record_needs_its_image() {
    let short = Probe {
        image: vec![0; 127],
        ..probe(Call::Open, &[]).over_image()
    };
    let lines = text_of(std::slice::from_ref(&short));
    assert!(lines.starts_with("1 3 0 0 0 0 0 0000"));
    assert_eq!(
        text_of(&[short.clone(), going_on(Call::Open, &[])]),
        format!("{lines}cut\n")
    );
    let again = going_on(Call::Open, &[]).over_image();
    assert!(text_of(&[short, again]).contains("\n2 3 0 0 0 0 0 0000"));
    let none = Probe {
        image: Vec::new(),
        ..probe(Call::Close, &[]).over_image()
    };
    assert!(text_of(&[none]).starts_with("1 3 0 0 0 0 0 - "));
}

/// Over a record nothing but a 1 is a flag that is up, and what is spare is not looked
/// at; the image behind the call is that of the record.
#[test]
fn odd_bytes_over_a_record() {
    let mut odd = probe(Call::Transact, &on(1, &[0x06]));
    odd.image[place::ARMED] = 2;
    odd.image[place::ASLEEP] = 255;
    odd.image[place::OPEN] = 64;
    odd.image[100] = 7;
    let outcome = odd.run().unwrap();
    assert_eq!((outcome.answer, outcome.image[100]), (Done, 0));
    let mut expected = Bench::m().record;
    expected.latch = true;
    assert_eq!(outcome.image, image_of(&expected));
    assert_eq!(answer_of(&odd.over_image()), State);
}

#[test]
fn lines_of_probes_that_go_on() {
    let mut first = probe(Call::Open, &[]);
    first.edit(|record| record.latch = true);
    let samples = on(1, &join(&[&[0x02], &at(0x3FF), &[0xC5, 0x0F]]));
    let mut memory: Vec<u8> = (0..1024u64).map(|i| (9 + i * 7 + i / 251) as u8).collect();
    let half = digest(&memory[..512]);
    let before = digest(&memory);
    memory[0x3FF] = 0xC5;
    let after = digest(&memory);
    let area: Vec<u8> = (0..256u64).map(|i| (9 + 3 + i * 5) as u8).collect();
    let area = format!("{:08X}", digest(&area));
    let filled = |seed: u64, bytes: u64| -> Vec<u8> {
        (0..bytes).map(|i| (seed + 11 + i * 13) as u8).collect()
    };
    let none = format!("{:08X}", digest(&[]));
    let zeros = |bytes: usize| format!("{:08X}", digest(&vec![0; bytes]));
    let list = [
        first,
        going_on(Call::Feed, &samples[..35]),
        // Less memory: refused, and what is lent is shown.
        Probe {
            memory_bytes: 512,
            ..going_on(Call::Feed, &samples[35..])
        },
        going_on(Call::Open, &[]),
        // The output has its own seed in each probe.
        Probe {
            seed: 77,
            output_bytes: 6,
            ..going_on(Call::Feed, &samples[35..40])
        },
        going_on(Call::Close, &[]),
        going_on(Call::Close, &[]),
        // The whole chip goes on, and a new one begins.
        going_on(Call::Transact, &on(1, &[0x66])),
        probe(Call::PowerCycle, &[]),
    ];
    let text = text_of(&list);
    let lines: Vec<&str> = text.lines().collect();
    // Latch, armed, asleep and toggle; selected, opcode, clocks, address and number.
    let image = |flags: &str, open: &str| {
        let zeros = |bytes: usize| "00".repeat(bytes);
        let numbers = "E6011501000000008172635445362718";
        format!(
            "010A00000000000800050001{flags}{numbers}{}{open}{}",
            zeros(8 + 24),
            zeros(8 + 40)
        )
    };
    let closed = "00000000000000000000000000000000";
    let opened = image("01000000", "01000000000000000000000000000000");
    let after_35 = image("01000000", "0102000023000000FF03000006000000");
    let after_40 = image("01000000", "0102000028000000FF03000000000000");
    let latched = image("01000000", closed);
    let armed = image("01010000", closed);
    let plain = image("00000000", closed);
    let mut last = vec![0; 5];
    last.extend(&filled(77, 6)[5..]);
    let expected = [
        format!("1 0 0 0 0 0 0 {opened} {before:08X} {area} {none}"),
        format!("2 0 0 0 0 0 0 {after_35} {before:08X} {area} {}", zeros(35)),
        format!(
            "3 1 0 0 0 0 0 {after_35} {half:08X} {area} {:08X}",
            digest(&filled(9, 13))
        ),
        format!("4 13 0 0 0 0 0 {after_35} {before:08X} {area} {none}"),
        format!(
            "5 0 0 0 0 0 0 {after_40} {after:08X} {area} {:08X}",
            digest(&last)
        ),
        format!("6 0 8 24 0 8 0 {latched} {after:08X} {area} {none}"),
        format!("7 13 0 0 0 0 0 {latched} {after:08X} {area} {none}"),
        format!("8 0 8 0 0 0 0 {armed} {after:08X} {area} {}", zeros(8)),
        format!("9 0 0 0 0 0 0 {plain} {before:08X} {area} {none}"),
    ];
    assert_eq!(lines, expected);
    // Over the image all is the same, and so it is by turns.
    let over_image: Vec<Probe> = list.iter().cloned().map(Probe::over_image).collect();
    assert_eq!(text_of(&over_image), text);
    for first in 0..2 {
        let by_turns = list.iter().zip(&over_image).enumerate();
        let by_turns = by_turns.map(|(at, (record, image))| {
            let over_record = at % 2 == first;
            (if over_record { record } else { image }).clone()
        });
        assert_eq!(text_of(&by_turns.collect::<Vec<_>>()), text);
    }
}

/// A probe on an open record goes on as if its samples had been kept.
#[test]
fn a_sequence_may_begin_with_one_open() {
    let mut first = probe(Call::Feed, &on(1, &[0x34]));
    first.edit(|record| {
        record.latch = true;
        record.open = Open {
            flag: true,
            clocks: 8 + 8 * 4 + 4,
            opcode: 0x87,
            value: [0, 3, 0x11, 0x06, 0, 0, 0, 0],
            ..Open::default()
        };
    });
    let close = going_on(Call::Close, &[]);
    // All four values have come, and the clocks behind them are too many.
    let text = text_of(&[first.clone(), close.clone()]);
    assert!(text.starts_with("1 0 0 0 0 0 0 010A000000000008000500010100"));
    assert!(text.contains("\n2 11 8 0 0 32 12 010A000000000008000500010100"));
    // A value less: the bits of the last one go on where they stand.
    first.edit(|record| {
        record.open.clocks -= 8;
        record.open.value[3] = 0;
    });
    first.samples = on(1, &[0x60])[..4].to_vec();
    let text = text_of(&[first.clone(), close.clone()]);
    assert!(
        text.contains("\n2 0 8 0 0 32 0 010A00000000000311060001000000"),
        "{text}"
    );
    assert_eq!(text_of(&[first.over_image(), close.over_image()]), text);
}

#[test]
fn spots_of_records() {
    let m = find(1).unwrap();
    let p = find(2).unwrap();
    let spot = |phase: Phase, wires: u8, clocks: usize| Spot {
        phase,
        wires,
        clocks,
    };
    let mut chip = Bench::m();
    let mut stand = |clocks: u32, opcode: u8, address: u32| {
        chip.record.open = Open {
            flag: true,
            clocks,
            opcode,
            address,
            ..Open::default()
        };
        Spot::of(m, &chip.record)
    };
    assert_eq!(stand(0, 0, 0), spot(Phase::Command, 1, 0));
    assert_eq!(stand(7, 0, 0), spot(Phase::Command, 1, 7));
    assert_eq!(stand(8, 2, 0), spot(Phase::Address, 1, 0));
    assert_eq!(stand(31, 2, 0), spot(Phase::Address, 1, 23));
    assert_eq!(stand(32, 2, 0), spot(Phase::Memory, 1, 0));
    assert_eq!(stand(43, 2, 0), spot(Phase::Memory, 1, 3));
    assert_eq!(stand(43, 2, 0x400), spot(Phase::Rest(Why::Address), 1, 11));
    assert_eq!(stand(43, 0x42, 0), spot(Phase::Area, 1, 3));
    assert_eq!(stand(33, 0x65, 0), spot(Phase::Wait, 1, 1));
    assert_eq!(stand(41, 0x65, 0), spot(Phase::Read, 1, 1));
    assert_eq!(stand(47, 0x65, 0), spot(Phase::Read, 1, 7));
    assert_eq!(stand(32 + 8 * 3, 3, 0), spot(Phase::Read, 1, 0));
    assert_eq!(stand(32 + 8 * 3 + 5, 3, 0), spot(Phase::Read, 1, 5));
    assert_eq!(stand(50, 0x65, 0), spot(Phase::Rest(Why::PastRead), 1, 2));
    assert_eq!(stand(8, 6, 0), spot(Phase::Rest(Why::PastCommand), 1, 0));
    assert_eq!(stand(9, 1, 0), spot(Phase::Register, 1, 1));
    assert_eq!(stand(17, 1, 0), spot(Phase::Rest(Why::PastWrite), 1, 1));
    assert_eq!(stand(9, 0x0B, 0), spot(Phase::Rest(Why::Unknown), 1, 1));
    chip.record.asleep = true;
    assert_eq!(
        Spot::of(m, &chip.record),
        spot(Phase::Rest(Why::Asleep), 1, 1)
    );
    let mut chip = Bench::p();
    chip.record.open.opcode = 0x38;
    chip.record.open.clocks = 15;
    assert_eq!(Spot::of(p, &chip.record), spot(Phase::Memory, 4, 1));
}

/// Of data, read or written, each clock of a byte is a place to cut at; of a wait and
/// the rest only the beginning and all else are.
#[test]
fn spots_to_cut_at() {
    for part in PARTS {
        let list = Spot::list(part);
        for phase in Phase::list(part) {
            for wires in phase.wires(part) {
                let byte_clocks = 8 / usize::from(wires);
                let expected = match phase {
                    Phase::Command => 1..byte_clocks,
                    Phase::Address => 0..3 * byte_clocks,
                    Phase::Wait | Phase::Rest(_) => 0..2,
                    Phase::Read | Phase::Memory | Phase::Area | Phase::Register => 0..byte_clocks,
                };
                let here = |spot: &&Spot| spot.phase == phase && spot.wires == wires;
                let found = list.iter().filter(here).map(|spot| spot.clocks);
                assert!(found.eq(expected), "{phase:?} on {wires}");
            }
        }
    }
    let rough = |phase: Phase| {
        Spot {
            phase,
            wires: 1,
            clocks: 5,
        }
        .rough()
    };
    assert_eq!(rough(Phase::Read).clocks, 5);
    assert_eq!(rough(Phase::Wait).clocks, 1);
    assert_eq!(rough(Phase::Rest(Why::PastRead)).clocks, 1);
}

/// Made courses, records and damages are what they are made for.
#[test]
fn made_for_what_they_show() {
    let mut rng = Rng::new(5);
    for part in PARTS {
        for spot in Spot::list(part) {
            let course = through(&mut rng, part, spot.phase, spot.wires);
            let passes = |clocks| course.spot(clocks).rough() == spot;
            assert!((1..course.samples.len()).any(passes), "{spot:?}");
        }
        for phase in Phase::list(part) {
            for call in CALLS {
                for _ in 0..10 {
                    let probe = standing_probe(&mut rng, part, phase, call);
                    let record = record_of(&probe);
                    assert!(state_fits(part, &record), "{:?}", record.open);
                    assert_eq!(Spot::of(part, &record).phase, phase);
                    let told = matches!(call, Call::Feed | Call::Close);
                    assert_eq!(answer_of(&probe) == Turn, !told);
                }
            }
        }
        for damage in Damage::list(part) {
            for _ in 0..10 {
                let probe = damaged_probe(&mut rng, part, damage);
                let found = damages(part, &record_of(&probe));
                assert!(found.contains(&damage), "{damage:?}");
                assert_eq!(answer_of(&probe), State, "{damage:?}");
            }
        }
        for (phase, wires) in second::standing::largest_list(part) {
            let probe = largest_probe(&mut rng, part, phase, wires);
            let mut record = record_of(&probe);
            assert!(state_fits(part, &record));
            record.open.number += 1;
            assert!(!state_fits(part, &record));
        }
        for wanted in Wanted::single().into_iter().chain(Wanted::double()) {
            let probe = wanted.probe(&mut rng, part);
            let call = probe.task.call().unwrap();
            for over in [Over::Record, Over::Image] {
                let faults = refusals(over, call, &probe, &probe.image);
                let answer = answer_of(&Probe {
                    task: over.task(call),
                    ..probe.clone()
                });
                assert!(faults.len() <= 2);
                match faults.first() {
                    Some(&first) => assert_eq!(answer, first),
                    None => assert!(!checks(over, call).contains(&answer)),
                }
            }
        }
        let unarmed = second::answer::Answer::Unarmed;
        assert_eq!(answered(&mut rng, part, unarmed).answer(), unarmed);
    }
}

#[test]
fn refusals_of_a_call() {
    let mut fed = probe(Call::Feed, &[0, 16]);
    let all = |over: Over, call: Call, fed: &Probe| refusals(over, call, fed, &fed.image);
    assert_eq!(all(Over::Record, Call::Feed, &fed), [Sample, Turn]);
    fed.edit(|record| record.open.number = 1);
    assert_eq!(all(Over::Record, Call::Feed, &fed), [Sample, State, Turn]);
    assert_eq!(all(Over::Image, Call::Feed, &fed), [State, Sample, Turn]);
    fed.output_bytes = 1;
    let (record, image) = ([Size, Sample, State, Turn], [State, Size, Sample, Turn]);
    assert_eq!(all(Over::Record, Call::Feed, &fed), record);
    assert_eq!(all(Over::Image, Call::Feed, &fed), image);
    assert_eq!(all(Over::Record, Call::Open, &fed), [State]);
    assert_eq!(all(Over::Image, Call::Open, &fed), [State]);
    fed.edit(|record| record.part = 0);
    assert_eq!(all(Over::Record, Call::Open, &fed), [Size]);
    assert_eq!(all(Over::Image, Call::Open, &fed), [State]);
    // Of an image that is too short the rest is as if there were zeros.
    fed.edit(|record| (record.part, record.open.number) = (1, 0));
    fed.image.truncate(IMAGE_BYTES - 1);
    assert_eq!(all(Over::Image, Call::Feed, &fed), image);
}

/// A made file runs to its end: what goes on has something to go on from, and no
/// more is lent than there is.
#[test]
fn made_sequences() {
    for seed in 1..=3 {
        let bytes = probes(seed, 2000);
        assert!(bytes.len() < 3_000_000, "{}", bytes.len());
        let text = probe_text(&bytes);
        assert_eq!(text.lines().count(), 2000);
        assert!(!text.contains("cut"));
        let list = probe_list(seed, 2000);
        let mut runner = Runner::default();
        let mut reached = chunked::Reached::new(Over::Record);
        let (mut sequences, mut chunks, mut most_chunks, mut full) = (0, 0, 0, 0);
        let mut before: Option<&Probe> = None;
        for probe in &list {
            let outcome = runner.run(probe).expect("a probe that runs");
            reached.add(probe, &outcome);
            assert!(probe.samples.len() <= MOST_CLOCKS + 1);
            if probe.goes_on {
                assert!(probe.image.is_empty());
                sequences += u32::from(before.is_some_and(|before| !before.goes_on));
                chunks += u32::from(probe.task.call() == Some(Call::Feed));
                most_chunks = most_chunks.max(chunks);
                let open = outcome.record().expect("a whole image").open;
                full += u32::from(open.clocks as usize == MOST_CLOCKS);
            } else {
                chunks = 0;
            }
            before = Some(probe);
        }
        assert!(sequences > 50, "{sequences}");
        assert!((20..40).contains(&most_chunks), "{most_chunks}");
        assert!(full > 3);
        let singles = |task: Task| list.iter().filter(|p| !p.goes_on && p.task == task).count();
        assert!(CALLS
            .into_iter()
            .all(|call| singles(Task::Record(call)) > 40));
        assert!(CALLS.into_iter().all(|call| singles(Task::Image(call)) > 5));
        assert!(PARTS
            .into_iter()
            .all(|part| singles(Task::Fresh(part)) > 12));
        // About a quarter is over images, of sequences too.
        let images = |p: &&Probe| !matches!(p.task, Task::Record(_));
        let number = list.iter().filter(images).count();
        assert!((380..520).contains(&number), "{number}");
        let going_on = |p: &&Probe| p.goes_on && images(p);
        let number = list.iter().filter(going_on).count();
        assert!((100..300).contains(&number), "{number}");
        // Records with one open and with none.
        let open = |p: &&Probe| p.record().map(|record| record.open);
        let opened = |p: &&Probe| open(p).is_some_and(|open| open.flag);
        assert!(list.iter().filter(opened).count() > 300);
        let none = |p: &&Probe| open(p) == Some(Open::default());
        assert!(list.iter().filter(none).count() > 700);
    }
}

/// The coverage sees a close that is not as the whole transaction, and an answer
/// that the refusals do not ask for.
#[test]
fn coverage_sees_what_is_wrong() {
    let wrong = |change: &dyn Fn(&mut second::probe::Outcome)| {
        let mut runner = Runner::default();
        let mut reached = chunked::Reached::new(Over::Record);
        let list = [
            probe(Call::Open, &[]),
            going_on(Call::Feed, &on(1, &[0x06])),
            going_on(Call::Close, &[]),
        ];
        for probe in &list {
            let mut outcome = runner.run(probe).expect("a probe that runs");
            if probe.task.call() == Some(Call::Close) {
                change(&mut outcome);
            }
            reached.add(probe, &outcome);
        }
        let mut text = String::new();
        assert!(!reached.show(&mut text));
        !text.contains("otherwise than they should be: 0\n")
    };
    assert!(!wrong(&|_| {}));
    assert!(wrong(&|outcome| outcome.counts.rest = 1));
    assert!(wrong(&|outcome| outcome.image[place::ARMED] = 1));
    assert!(wrong(&|outcome| outcome.memory[5] ^= 1));
    assert!(wrong(&|outcome| outcome.answer = Turn));
}

/// What the coverage of chunks tells of these probes, and whether nothing is missing.
fn coverage_of(list: &[Probe]) -> (String, bool) {
    let mut runner = Runner::default();
    let mut reached = chunked::Reached::new(Over::Record);
    for probe in list {
        let outcome = runner.run(probe).expect("a probe that runs");
        reached.add(probe, &outcome);
    }
    let mut text = String::new();
    let complete = reached.show(&mut text);
    (text, complete)
}

/// The words of the line about cuts in read data on so many wires.
fn cuts_in_read_data<'a>(text: &'a str, part: &Part, wires: u8) -> Vec<&'a str> {
    let title = format!(
        "  part {}, clocks before a cut in read data on {wires}: ",
        part.word
    );
    let mut lines = text.lines();
    let words = lines.find_map(|line| line.strip_prefix(&title));
    words.expect("a line about it").split(", ").collect()
}

/// The same probes without a cut at this spot: the clocks behind it come with the
/// chunk before it.
fn without_cut(list: &[Probe], part: &Part, spot: Spot) -> Vec<Probe> {
    let mut runner = Runner::default();
    let mut kept: Vec<Probe> = Vec::new();
    // The place of the last good chunk in a sequence.
    let mut chunk = None;
    for probe in list {
        let outcome = runner.run(probe).expect("a probe that runs");
        if !probe.goes_on {
            chunk = None;
        }
        let Some(before) = outcome.record_before() else {
            kept.push(probe.clone());
            continue;
        };
        let fed = probe.goes_on
            && probe.task.call() == Some(Call::Feed)
            && outcome.answer == Done
            && !probe.samples.is_empty();
        match chunk {
            Some(at) if fed && before.part == part.number && Spot::of(part, &before) == spot => {
                let longer: &mut Probe = &mut kept[at];
                longer.samples.extend(&probe.samples);
                longer.output_bytes += probe.samples.len();
            }
            _ => {
                if fed {
                    chunk = Some(kept.len());
                }
                kept.push(probe.clone());
            }
        }
    }
    kept
}

/// A read that is cut before each clock of one of its bytes.
#[test]
fn cuts_in_a_read_count_by_clock() {
    let m = find(1).unwrap();
    let first = 32 + 8;
    let samples = join(&[&on(1, &join(&[&[0x03], &at(0x12)])), &[0; 24]]);
    let mut list = vec![
        probe(Call::Open, &[]),
        going_on(Call::Feed, &samples[..first]),
    ];
    for clock in first..first + 7 {
        list.push(going_on(Call::Feed, &samples[clock..clock + 1]));
    }
    list.push(going_on(Call::Feed, &samples[first + 7..]));
    list.push(going_on(Call::Close, &[]));
    let words = ["0=1", "1=1", "2=1", "3=1", "4=1", "5=1", "6=1", "7=1"];
    let (text, _) = coverage_of(&list);
    assert_eq!(cuts_in_read_data(&text, m, 1), words);
    assert_eq!(cuts_in_read_data(&text, m, 2), ["0=0", "1=0", "2=0", "3=0"]);
    assert_eq!(cuts_in_read_data(&text, m, 4), ["0=0", "1=0"]);
    let spot = Spot {
        phase: Phase::Read,
        wires: 1,
        clocks: 3,
    };
    let (text, _) = coverage_of(&without_cut(&list, m, spot));
    let words = ["0=1", "1=1", "2=1", "3=0", "4=1", "5=1", "6=1", "7=1"];
    assert_eq!(cuts_in_read_data(&text, m, 1), words);
}

/// Probes that show all else are incomplete without a cut before the last clock of a
/// byte that is read.
#[test]
fn coverage_misses_a_cut_in_read_data() {
    let list = probe_list(1, 2000);
    let (text, complete) = coverage_of(&list);
    assert!(complete, "{text}");
    for part in PARTS {
        for wires in Phase::Read.wires(part) {
            let spot = Spot {
                phase: Phase::Read,
                wires,
                clocks: 8 / usize::from(wires) - 1,
            };
            let (text, complete) = coverage_of(&without_cut(&list, part, spot));
            assert!(!complete, "{spot:?}");
            let missing = format!("{}=0", spot.clocks);
            let words = cuts_in_read_data(&text, part, wires);
            assert_eq!(words.last(), Some(&&missing[..]));
            // It is the only one.
            assert_eq!(text.matches("=0").count(), 1, "{text}");
            assert!(text.ends_with("otherwise than they should be: 0\n"));
        }
    }
}
