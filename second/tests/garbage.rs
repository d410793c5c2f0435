//! Nothing panics, whatever is put in.

mod common;

use second::answer::{Answer, Class, Counts};
use second::chunks;
use second::compact::compact_text;
use second::device::{power_cycle, transact, Record};
use second::facts::Open;
use second::host::{build, gather};
use second::image::{self, image_of, place, valid};
use second::parts::PARTS;
use second::probe::probe_text;
use second::records::valid_record;
use second::request::host_text;
use second::rng::Rng;
use second::tape::bench;

fn noise(rng: &mut Rng, most: usize) -> Vec<u8> {
    let length = rng.below(most + 1);
    (0..length).map(|_| rng.byte()).collect()
}

#[test]
fn random_tapes() {
    let mut rng = Rng::new(11);
    for _ in 0..3000 {
        let tape = noise(&mut rng, 200);
        let text = bench(&tape);
        let last = text.lines().last().unwrap_or("");
        assert!(last.starts_with("end ") || last.starts_with("bad "));
    }
}

#[test]
fn tapes_with_good_heads_and_random_payloads() {
    let mut rng = Rng::new(12);
    for _ in 0..2000 {
        let mut tape = vec![2, 0, 3, 0, 1 + rng.below(3) as u8, 10 + rng.below(6) as u8];
        for _ in 0..rng.below(12) {
            let mut samples = noise(&mut rng, 60);
            if rng.chance(4, 5) {
                samples.iter_mut().for_each(|sample| *sample &= 15);
            }
            tape.extend((samples.len() as u16).to_le_bytes());
            tape.extend([1, 0]);
            tape.extend(samples);
        }
        assert!(bench(&tape).contains("\nend "));
        let mut bundle = (tape.len() as u32).to_le_bytes().to_vec();
        bundle.extend(&tape);
        assert!(compact_text(&bundle).contains("\nend "));
        let at = rng.below(bundle.len());
        bundle[at] ^= 1 << rng.below(8);
        compact_text(&bundle);
        bundle.truncate(at);
        compact_text(&bundle);
    }
}

#[test]
fn made_tapes_with_flipped_bits() {
    let mut rng = Rng::new(13);
    for seed in 0..60 {
        let mut tape = second::generate::tape(seed, 20);
        for _ in 0..3 {
            let at = rng.below(tape.len());
            tape[at] ^= 1 << rng.below(8);
        }
        bench(&tape);
    }
}

#[test]
fn random_probe_files() {
    let mut rng = Rng::new(14);
    for _ in 0..300 {
        let file = noise(&mut rng, 300);
        probe_text(&file);
    }
    let files = [second::spoil::probes(9, 20), second::images::images(9, 40)];
    for round in 0..300 {
        let mut file = files[round % 2].clone();
        for _ in 0..4 {
            // In the first head and image, where it hurts; buffers stay modest.
            let at = rng.pick(&[0, 1, 2, 3, 4, 5, 8, 12, 16, 20, 21, 24, 28, 32, 33]);
            let at = if rng.chance(1, 2) {
                at
            } else {
                32 + rng.below(128)
            };
            file[at] = rng.byte();
        }
        probe_text(&file);
        let kept = rng.below(file.len());
        probe_text(&file[..kept]);
    }
}

#[test]
fn random_request_files() {
    let mut rng = Rng::new(18);
    for _ in 0..300 {
        let file = noise(&mut rng, 100);
        host_text(&file);
    }
    let good = second::ask::requests(9, 20);
    for _ in 0..200 {
        let mut file = good.clone();
        for _ in 0..4 {
            let at = rng.below(file.len());
            file[at] = rng.byte();
        }
        host_text(&file);
        let kept = rng.below(file.len());
        host_text(&file[..kept]);
    }
}

fn any_record(rng: &mut Rng) -> Record {
    let eight = |rng: &mut Rng| rng.draw().to_le_bytes();
    Record {
        part: rng.byte() % 5,
        n: rng.byte(),
        mode: rng.byte() % 6,
        latch: rng.chance(1, 2),
        armed: rng.chance(1, 2),
        asleep: rng.chance(1, 2),
        toggle: rng.chance(1, 2),
        status: rng.byte(),
        area_protection: rng.byte(),
        configurations: [rng.byte(), rng.byte(), rng.byte(), rng.byte()],
        mr0: rng.byte(),
        identity: eight(rng),
        unique: eight(rng),
        serial: eight(rng),
        open: any_facts(rng),
    }
}

/// Mostly of none open, since hardly any other facts fit.
fn any_facts(rng: &mut Rng) -> Open {
    if rng.chance(3, 4) {
        return Open::default();
    }
    Open {
        flag: rng.chance(3, 4),
        clocks: if rng.chance(3, 4) {
            rng.below(60) as u32
        } else {
            rng.draw() as u32
        },
        opcode: rng.byte(),
        address: rng.draw() as u32 >> rng.below(32),
        number: rng.draw() as u32 >> rng.below(32),
        value: if rng.chance(1, 2) {
            [0; 8]
        } else {
            rng.eight()
        },
    }
}

/// Over any image that a call changes there is a valid one afterwards, and a refused
/// one is as it was.
#[test]
fn random_images() {
    let mut rng = Rng::new(19);
    let mut answers = [0; 14];
    for _ in 0..30_000 {
        let part = rng.pick(&PARTS);
        let mut image = image_of(&valid_record(&mut rng, part));
        image[place::N] = image[place::N].min(12);
        for _ in 0..rng.below(3) {
            let at = rng.below(image.len());
            image[at] = rng.pick(&[0, 1, 2, 255]);
        }
        if rng.chance(1, 20) {
            image.truncate(rng.below(128));
        }
        let n = image.get(place::N).map_or(10, |&n| n.min(12));
        let mut memory = vec![1; 1 << n];
        let mut area = vec![2; part.area_bytes];
        let mut output = vec![3; 60];
        for _ in 0..4 {
            let samples: Vec<u8> = noise(&mut rng, 50).iter().map(|byte| byte & 15).collect();
            let before = (image.clone(), memory.clone(), area.clone(), output.clone());
            let was_valid = valid(&image).is_some();
            let (answer, counts) = match rng.below(5) {
                0 => image::transact(&mut image, &mut memory, &mut area, &samples, &mut output),
                1 => image::power_cycle(&mut image, &mut memory, &mut area),
                2 => image::open(&mut image, &memory, &area),
                3 => image::feed(&mut image, &mut memory, &mut area, &samples, &mut output),
                _ => image::close(&mut image, &mut memory, &mut area),
            };
            answers[usize::from(answer.number())] += 1;
            assert_eq!(answer == Answer::State, !was_valid);
            assert_eq!(valid(&image).is_some(), was_valid);
            if answer.class() == Class::Refused {
                assert_eq!(counts, Counts::default());
                assert_eq!(
                    (image.clone(), memory.clone(), area.clone(), output.clone()),
                    before
                );
            }
        }
    }
    assert!(
        [0, 1, 3, 4, 5, 13]
            .iter()
            .all(|&answer| answers[answer] > 20),
        "{answers:?}"
    );
}

#[test]
fn random_calls() {
    let mut rng = Rng::new(15);
    for _ in 0..20_000 {
        let record = any_record(&mut rng);
        let samples = noise(&mut rng, 40);
        let memory_bytes = if rng.chance(1, 2) {
            1024
        } else {
            rng.below(3000)
        };
        let area_bytes = if rng.chance(2, 3) {
            rng.pick(&[256, 512])
        } else {
            rng.below(600)
        };
        let output_bytes = rng.below(50);
        let mut memory = vec![1; memory_bytes];
        let mut area = vec![2; area_bytes];
        let mut output = vec![3; output_bytes];
        let mut after = record;
        let (answer, counts) = transact(&mut after, &mut memory, &mut area, &samples, &mut output);
        if answer.class() == Class::Refused {
            assert_eq!((after, counts), (record, Counts::default()));
        }
        let (answer, counts) = power_cycle(&mut after, &mut memory, &mut area);
        let refusals = [Answer::Size, Answer::State, Answer::Turn];
        assert!(answer == Answer::Done || refusals.contains(&answer));
        assert_eq!(counts, Counts::default());
        let mut kept = None;
        for _ in 0..3 {
            let before = after;
            let (answer, counts) = match rng.below(3) {
                0 => chunks::open(&mut after, &memory, &area, &mut kept),
                1 => chunks::feed(
                    &mut after,
                    &mut memory,
                    &mut area,
                    &mut kept,
                    &samples,
                    &mut output,
                ),
                _ => chunks::close(&mut after, &mut memory, &mut area, &mut kept),
            };
            if answer.class() == Class::Refused {
                assert_eq!((after, counts), (before, Counts::default()));
            }
        }
    }
}

/// Valid records and random samples: the counts always add up, and what a
/// refusal must keep is kept.
#[test]
fn random_transactions() {
    let mut rng = Rng::new(16);
    for part in [1u8, 2, 3] {
        let mut chip = common::Bench::new(part, 10);
        for _ in 0..30_000 {
            let length = rng.below(60);
            let samples: Vec<u8> = (0..length).map(|_| rng.byte() & 15).collect();
            let (record, memory, area) = (chip.record, chip.memory.clone(), chip.area.clone());
            let (answer, _) = chip.full(&samples);
            if chip.answer.class() == Class::Declined {
                assert_eq!(memory, chip.memory);
                assert_eq!(area, chip.area);
                let mut expected = Record {
                    armed: false,
                    ..record
                };
                if answer == 9 {
                    expected.latch = chip.record.latch;
                }
                assert_eq!(chip.record, expected);
            }
        }
    }
}

#[test]
fn random_host_requests() {
    let mut rng = Rng::new(17);
    for _ in 0..20_000 {
        let any = |rng: &mut Rng, small: usize| -> u32 {
            if rng.chance(7, 8) {
                rng.below(small) as u32
            } else {
                rng.draw() as u32
            }
        };
        let part = any(&mut rng, 5);
        let opcode = any(&mut rng, 300);
        let mode = any(&mut rng, 6);
        let address = any(&mut rng, 1 << 25);
        let configuration2 = any(&mut rng, 20);
        let number = any(&mut rng, 12);
        let data = noise(&mut rng, 10);
        let mut room = vec![0xA5; rng.below(200)];
        let (answer, told) = build(
            part,
            opcode,
            mode,
            address,
            configuration2,
            &data,
            number,
            &mut room,
        );
        assert!([0, 1, 4, 5, 7, 10, 11].contains(&answer.number()));
        assert!(room[told as usize..].iter().all(|&byte| byte == 0xA5));
        assert!(room[..told as usize].iter().all(|&byte| byte <= 15));
        let outputs = noise(&mut rng, 30);
        let (answer, told) = gather(any(&mut rng, 6), &outputs, &mut room);
        assert!([0, 1, 2, 5].contains(&answer.number()));
        assert!(told as usize <= room.len());
    }
}
