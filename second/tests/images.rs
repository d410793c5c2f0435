//! The image of a record: its bytes, which images are valid, the calls over an image,
//! the order of their checks, and fresh chips.

mod common;

use common::{at, five, join, on, out, Bench, M, M32, P};
use second::answer::{Answer, Counts};
use second::chunks;
use second::device::{power_cycle, transact, Record};
use second::facts::Open;
use second::flaws::{flaws, Field, Flaw};
use second::image::{self, image_of, spare_places, spelled, valid, FLAGS};
use second::imaged;
use second::images::{image_list, Birth};
use second::parts::{find, PARTS};
use second::probe::{Call, Outcome, Probe, Runner, Task, CALLS};
use second::rng::Rng;

/// An image with these bytes at these places and zeros elsewhere.
fn bytes_at(pieces: &[(usize, &[u8])]) -> Vec<u8> {
    let mut image = vec![0; 128];
    for (place, bytes) in pieces {
        image[*place..place + bytes.len()].copy_from_slice(bytes);
    }
    image
}

/// A chip by its image alone.
struct Chip {
    image: Vec<u8>,
    memory: Vec<u8>,
    area: Vec<u8>,
    output: Vec<u8>,
}

impl Chip {
    fn of(bench: &Bench) -> Chip {
        Chip {
            image: image_of(&bench.record),
            memory: bench.memory.clone(),
            area: bench.area.clone(),
            output: Vec::new(),
        }
    }

    /// The call with these samples and as much room as they need.
    fn call(&mut self, call: Call, samples: &[u8]) -> (u8, Counts) {
        self.output = vec![0xA5; samples.len() + 2];
        self.roomy_call(call, samples)
    }

    /// The call with the room there is.
    fn roomy_call(&mut self, call: Call, samples: &[u8]) -> (u8, Counts) {
        let (image, memory, area) = (&mut self.image, &mut self.memory, &mut self.area);
        let (answer, counts) = match call {
            Call::Transact => image::transact(image, memory, area, samples, &mut self.output),
            Call::PowerCycle => image::power_cycle(image, memory, area),
            Call::Open => image::open(image, memory, area),
            Call::Feed => image::feed(image, memory, area, samples, &mut self.output),
            Call::Close => image::close(image, memory, area),
        };
        (answer.number(), counts)
    }

    /// The same; a refusal must leave everything as it is.
    fn refused(&mut self, call: Call, samples: &[u8], room: usize) -> u8 {
        self.output = vec![0xA5; room];
        let before = (self.image.clone(), self.memory.clone(), self.area.clone());
        let (answer, counts) = self.roomy_call(call, samples);
        assert_eq!(counts, five(0, 0, 0, 0, 0));
        assert_eq!(self.output, vec![0xA5; room]);
        let after = (self.image.clone(), self.memory.clone(), self.area.clone());
        assert_eq!(after, before);
        answer
    }
}

#[test]
fn a_fresh_chip_byte_by_byte() {
    let m = find(M).unwrap();
    let p = find(P).unwrap();
    let m32 = find(M32).unwrap();
    let noise: Vec<u8> = (0..128).map(|i| 0xFF - i).collect();
    let unique = [0x11, 0x22, 0x33, 0x44, 0x55, 0x66, 0x77, 0x88];
    let mut image = noise.clone();
    let identity = [0xE6, 0x01, 0x15, 0x09];
    let answer = image::fresh(m, &mut image, 17, &identity, &unique);
    assert_eq!(answer, Answer::Done);
    let expected = bytes_at(&[
        (0, &[1, 17]),
        (7, &[0x08]),
        (9, &[0x05]),
        (11, &[1]),
        (16, &identity),
        (24, &unique),
    ]);
    assert_eq!(image, expected);
    assert!(valid(&image).is_some());
    let mut image = noise.clone();
    let answer = image::fresh(m32, &mut image, 22, &identity, &unique);
    assert_eq!(answer, Answer::Done);
    let expected = bytes_at(&[
        (0, &[3, 22]),
        (7, &[0x08]),
        (9, &[0x05]),
        (11, &[1]),
        (16, &identity),
        (24, &unique),
    ]);
    assert_eq!(image, expected);
    let identity = [0x0D, 0x5D, 0x52, 3, 4, 5, 6, 7];
    // Part P does not look at a unique number.
    for unique in [&[][..], &unique, &unique[..3]] {
        let mut image = noise.clone();
        let answer = image::fresh(p, &mut image, 10, &identity, unique);
        assert_eq!(answer, Answer::Done);
        let expected = bytes_at(&[(0, &[2, 10]), (10, &[0x60, 1]), (16, &identity)]);
        assert_eq!(image, expected);
    }
}

#[test]
fn a_fresh_chip_refused() {
    for part in PARTS {
        let bytes = part.identity_bytes;
        let eight = [9; 9];
        let good_n = [part.least_n, part.most_n];
        let ask = |length: usize, n: u8, identity: usize, unique: usize| {
            let before: Vec<u8> = (0..length).map(|i| i as u8 ^ 0x5A).collect();
            let mut image = before.clone();
            let answer = image::fresh(part, &mut image, n, &eight[..identity], &eight[..unique]);
            assert_eq!(image == before, answer != Answer::Done);
            answer.number()
        };
        for n in 0..=255 {
            let offered = (10..=if part.number == M32 { 22 } else { 21 }).contains(&n);
            assert_eq!(ask(128, n, bytes, 8), if offered { 0 } else { 1 });
            assert_eq!(ask(127, n, bytes, 8), 3);
        }
        for n in good_n {
            for identity in 0..=9 {
                let fits = identity == if part.number == P { 8 } else { 4 };
                assert_eq!(ask(128, n, identity, 8), if fits { 0 } else { 1 });
            }
            for unique in 0..=9 {
                let fits = part.number == P || unique == 8;
                assert_eq!(ask(128, n, bytes, unique), if fits { 0 } else { 1 });
            }
            // 3 for the length comes first.
            for length in [0, 1, 127, 129, 256] {
                assert_eq!(ask(length, n, bytes, 8), 3);
                assert_eq!(ask(length, 9, bytes, 8), 3);
                assert_eq!(ask(length, n, bytes + 1, 8), 3);
                assert_eq!(ask(length, n, bytes, 7), 3);
            }
        }
    }
}

/// Every field at its place, with a value of its own.
#[test]
fn a_record_byte_by_byte() {
    let record = Record {
        part: 3,
        n: 14,
        mode: 4,
        latch: true,
        armed: false,
        asleep: true,
        toggle: false,
        status: 0x2C,
        area_protection: 0xB7,
        configurations: [0x91, 0x92, 0x93, 0x94],
        mr0: 0x95,
        identity: [0x20, 0x21, 0x22, 0x23, 0x24, 0x25, 0x26, 0x27],
        unique: [0x30, 0x31, 0x32, 0x33, 0x34, 0x35, 0x36, 0x37],
        serial: [0x40, 0x41, 0x42, 0x43, 0x44, 0x45, 0x46, 0x47],
        open: Open {
            flag: true,
            clocks: 0x0102_0304,
            opcode: 0xAB,
            address: 0x1122_3344,
            number: 0x5566_7788,
            value: [0x50, 0x51, 0x52, 0x53, 0x54, 0x55, 0x56, 0x57],
        },
    };
    let expected = bytes_at(&[
        (0, &[3, 14]),
        (4, &[0x2C, 0xB7, 0x91, 0x92, 0x93, 0x94, 0x95, 4]),
        (12, &[1, 0, 1, 0]),
        (16, &[0x20, 0x21, 0x22, 0x23, 0x24, 0x25, 0x26, 0x27]),
        (24, &[0x30, 0x31, 0x32, 0x33, 0x34, 0x35, 0x36, 0x37]),
        (32, &[0x40, 0x41, 0x42, 0x43, 0x44, 0x45, 0x46, 0x47]),
        (64, &[1, 0xAB]),
        (68, &[4, 3, 2, 1]),
        (72, &[0x44, 0x33, 0x22, 0x11]),
        (76, &[0x88, 0x77, 0x66, 0x55]),
        (80, &[0x50, 0x51, 0x52, 0x53, 0x54, 0x55, 0x56, 0x57]),
    ]);
    assert_eq!(image_of(&record), expected);
    assert_eq!(spelled(&expected), Some(record));
    let other = Record {
        latch: false,
        armed: true,
        asleep: false,
        toggle: true,
        ..record
    };
    assert_eq!(image_of(&other)[12..16], [0, 1, 0, 1]);
    assert_eq!(spelled(&image_of(&other)), Some(other));
    // Only a 1 is a flag that is up, and what is spare is not looked at.
    let mut odd = expected.clone();
    odd[12] = 2;
    odd[64] = 255;
    for place in spare_places() {
        odd[place] = 0x77;
    }
    let read = spelled(&odd).unwrap();
    assert!(!read.latch && !read.open.flag && read.asleep);
    for length in [0, 1, 127, 129, 256] {
        assert_eq!(spelled(&vec![0; length]), None);
    }
    let places: Vec<usize> = spare_places();
    assert_eq!(places.len(), 68);
    for place in places {
        assert!(expected[place] == 0 && !FLAGS.contains(&place));
    }
}

/// What each part may have in each byte of the image of a fresh chip, and what not.
#[test]
fn valid_bytes() {
    for part in [M, P, M32] {
        let fresh = image_of(&Bench::new(part, 10).record);
        let mram = part != P;
        let codes = if part == M { 5 } else { 7 };
        for place in 0..128usize {
            for byte in 0..=255u8 {
                let mut image = fresh.clone();
                image[place] = byte;
                let fits = match place {
                    // The registers of M and M32 fit each other.
                    0 => byte == part || mram && (byte == M || byte == M32),
                    1 => (10..=if part == M32 { 22 } else { 21 }).contains(&byte),
                    4 => byte == 0 || mram && byte & 0xC3 == 0,
                    5 => mram || byte == 0,
                    6 => byte == 0,
                    7 => mram && byte < 16 || byte == 0,
                    8 => mram && byte & 8 == 0 && byte & 7 < codes || byte == 0,
                    9 => mram && (4..7).contains(&byte) || !mram && byte == 0,
                    10 if mram => byte == 0,
                    10 => byte & 0x9C == 0 && byte & 3 != 3,
                    11 => byte == 1 || byte == 4 || byte == 2 && mram,
                    12 | 14 => byte == 0 || mram && byte == 1,
                    13 => byte < 2,
                    15 => byte == 0 || !mram && byte == 1,
                    16..=19 => true,
                    20..=23 => !mram || byte == 0,
                    24..=39 => mram || byte == 0,
                    64 => byte < 2,
                    _ => byte == 0,
                };
                assert_eq!(valid(&image).is_some(), fits, "part {part} {place} {byte}");
                // What else a valid image has is its record's.
                let back = valid(&image).map(|record| image_of(&record));
                assert_eq!(back, fits.then_some(image));
            }
        }
        for length in [0, 1, 64, 127, 129, 130, 255, 256] {
            let mut image = fresh.clone();
            image.resize(length, 0);
            assert_eq!(valid(&image), None);
        }
    }
}

/// The bytes of a memory write on one wire while it comes, and of a register write.
#[test]
fn an_open_transaction_byte_by_byte() {
    let mut bench = Bench::m();
    bench.record.latch = true;
    let mut chip = Chip::of(&bench);
    let closed = chip.image.clone();
    let opened = |pieces: &[(usize, &[u8])]| {
        let mut image = closed.clone();
        for (place, bytes) in pieces {
            image[*place..place + bytes.len()].copy_from_slice(bytes);
        }
        image
    };
    let samples = on(1, &join(&[&[0x02], &at(0x123), &[0xA5, 0xC3]]));
    assert_eq!(chip.call(Call::Open, &[]), (0, five(0, 0, 0, 0, 0)));
    assert_eq!(chip.image, opened(&[(64, &[1])]));
    // Seven bits of the command: 0000001.
    assert_eq!(chip.call(Call::Feed, &samples[..7]).0, 0);
    assert_eq!(chip.image, opened(&[(64, &[1]), (68, &[7]), (76, &[1])]));
    assert_eq!(chip.call(Call::Feed, &samples[7..8]).0, 0);
    assert_eq!(chip.image, opened(&[(64, &[1, 2]), (68, &[8])]));
    // All but the last bit of the address.
    assert_eq!(chip.call(Call::Feed, &samples[8..31]).0, 0);
    let expected = opened(&[(64, &[1, 2]), (68, &[31]), (76, &[0x91])]);
    assert_eq!(chip.image, expected);
    assert_eq!(chip.call(Call::Feed, &samples[31..35]).0, 0);
    let expected = opened(&[(64, &[1, 2]), (68, &[35]), (72, &[0x23, 1]), (76, &[5])]);
    assert_eq!(chip.image, expected);
    assert_eq!(chip.call(Call::Feed, &samples[35..]).0, 0);
    let expected = opened(&[(64, &[1, 2]), (68, &[48]), (72, &[0x23, 1])]);
    assert_eq!(chip.image, expected);
    assert_eq!(chip.memory[0x123..0x125], [0xA5, 0xC3]);
    assert_eq!(chip.call(Call::Close, &[]), (0, five(8, 24, 0, 16, 0)));
    assert_eq!(chip.image, closed);
    // The serial number on two wires, six bytes and two bits of it.
    chip.image[11] = 2;
    let samples = on(2, &[0xC2, 1, 2, 3, 4, 5, 6, 0xFF, 8]);
    assert_eq!(chip.call(Call::Open, &[]).0, 0);
    assert_eq!(chip.call(Call::Feed, &samples[..29]).0, 0);
    let mut expected = opened(&[(11, &[2]), (64, &[1, 0xC2]), (68, &[29]), (76, &[3])]);
    expected[80..86].copy_from_slice(&[1, 2, 3, 4, 5, 6]);
    assert_eq!(chip.image, expected);
    assert_eq!(chip.call(Call::Feed, &samples[29..]).0, 0);
    assert_eq!(chip.call(Call::Close, &[]), (0, five(4, 0, 0, 32, 0)));
    // The register write drops the latch.
    let expected = opened(&[(11, &[2, 0]), (32, &[1, 2, 3, 4, 5, 6, 0xFF, 8])]);
    assert_eq!(chip.image, expected);
    // Many clocks: the number has its low byte first.
    let mut chip = Chip::of(&Bench::p());
    assert_eq!(chip.call(Call::Open, &[]).0, 0);
    let long = join(&[&on(1, &[0x99]), &vec![0; 0xF0E7 - 8]]);
    assert_eq!(chip.call(Call::Feed, &long).0, 0);
    assert_eq!(chip.image[64..72], [1, 0x99, 0, 0, 0xE7, 0xF0, 0, 0]);
    assert_eq!(chip.call(Call::Feed, &[0; 0xF19]).0, 1);
    assert_eq!(chip.call(Call::Feed, &[0; 0xF18]).0, 0);
    assert_eq!(chip.image[68..72], [0xFF, 0xFF, 0, 0]);
    assert_eq!(chip.call(Call::Close, &[]), (11, five(8, 0, 0, 0, 65_527)));
}

/// Reading over an image, whole and in chunks.
#[test]
fn reading_back() {
    for bench in [
        Bench::m().marked(),
        Bench::p().marked(),
        Bench::m32().marked(),
    ] {
        let mut chip = Chip::of(&bench);
        let before = chip.image.clone();
        let samples = on(1, &join(&[&[0x03], &at(0x155), &[0xFF, 0]]));
        let driven = out(1, &bench.memory[0x155..0x157]);
        let told = (0, five(8, 24, 0, 16, 0));
        assert_eq!(chip.call(Call::Transact, &samples), told);
        let all = join(&[&[0; 32], &driven, &[0xA5; 2]]);
        assert_eq!(chip.output, all);
        assert_eq!(chip.image, before);
        assert_eq!(chip.call(Call::Open, &[]).0, 0);
        assert_eq!(chip.call(Call::Feed, &samples[..35]).0, 0);
        assert_eq!(chip.output, join(&[&[0; 32], &driven[..3], &[0xA5; 2]]));
        assert_eq!(chip.call(Call::Feed, &samples[35..]).0, 0);
        assert_eq!(chip.output, join(&[&driven[3..], &[0xA5; 2]]));
        assert_eq!(chip.call(Call::Close, &[]), told);
        assert_eq!(chip.image, before);
        assert_eq!(chip.memory, bench.memory);
    }
    // The identity and the unique number, from where they stand in the image.
    let mut chip = Chip::of(&Bench::m32());
    let identity = chip.image[16..20].to_vec();
    let unique = chip.image[24..32].to_vec();
    let told = chip.call(Call::Transact, &join(&[&on(1, &[0x9F]), &[0; 32]]));
    assert_eq!(told, (0, five(8, 0, 0, 32, 0)));
    assert_eq!(chip.output[8..40], out(1, &identity));
    chip.call(Call::Transact, &join(&[&on(1, &[0x4C]), &[0; 64]]));
    assert_eq!(chip.output[8..72], out(1, &unique));
}

/// Registers, latch, mode and arming in the image behind a call.
#[test]
fn what_a_call_leaves_in_the_image() {
    let mut chip = Chip::of(&Bench::m());
    let fresh = chip.image.clone();
    let mut expected = fresh.clone();
    assert_eq!(chip.call(Call::Transact, &on(1, &[0x06])).0, 0);
    expected[12] = 1;
    assert_eq!(chip.image, expected);
    assert_eq!(
        chip.call(Call::Transact, &on(1, &[0x87, 0, 3, 0x12, 6])).0,
        0
    );
    expected[12] = 0;
    expected[6..10].copy_from_slice(&[0, 3, 0x12, 6]);
    assert_eq!(chip.image, expected);
    assert_eq!(chip.call(Call::Transact, &on(1, &[0x06])).0, 0);
    assert_eq!(chip.call(Call::Transact, &on(1, &[0x01, 0x3E])).0, 0);
    expected[4] = 0x3C;
    assert_eq!(chip.image, expected);
    assert_eq!(chip.call(Call::Transact, &on(1, &[0x06])).0, 0);
    assert_eq!(chip.call(Call::Transact, &on(1, &[0x1A, 0x81])).0, 0);
    expected[5] = 0x81;
    assert_eq!(chip.image, expected);
    assert_eq!(chip.call(Call::Transact, &on(1, &[0x38])).0, 0);
    expected[11] = 4;
    assert_eq!(chip.call(Call::Transact, &on(4, &[0x66])).0, 0);
    expected[13] = 1;
    assert_eq!(chip.image, expected);
    assert_eq!(chip.call(Call::Transact, &on(4, &[0xB9])).0, 0);
    expected[13..15].copy_from_slice(&[0, 1]);
    assert_eq!(chip.image, expected);
    assert_eq!(chip.call(Call::Transact, &on(4, &[0x05])).0, 6);
    assert_eq!(chip.call(Call::PowerCycle, &[]), (0, five(0, 0, 0, 0, 0)));
    expected[11] = 1;
    expected[14] = 0;
    assert_eq!(chip.image, expected);
    // Part P: the mode register and the toggle, and a power cycle.
    let mut chip = Chip::of(&Bench::p().marked());
    let fresh = chip.image.clone();
    assert_eq!(
        chip.call(Call::Transact, &on(1, &[0xB1, 0, 0, 0, 0x22])).0,
        0
    );
    assert_eq!(chip.call(Call::Transact, &on(1, &[0xC0])).0, 0);
    assert_eq!(chip.call(Call::Transact, &on(1, &[0x35])).0, 0);
    let mut expected = fresh.clone();
    expected[10..12].copy_from_slice(&[0x22, 4]);
    expected[15] = 1;
    assert_eq!(chip.image, expected);
    assert_eq!(chip.call(Call::PowerCycle, &[]).0, 0);
    assert_eq!(chip.image, fresh);
    assert!(chip.memory.iter().all(|&byte| byte == 0));
}

/// Each call is refused by 3 for every sort of image that no valid record has.
#[test]
fn images_that_no_valid_record_has() {
    for part in [M, P, M32] {
        let mut bench = Bench::new(part, 10);
        let closed = image_of(&bench.record);
        bench.record.open = Open {
            flag: true,
            clocks: 8 + 24 + 3,
            opcode: 0x02,
            address: 0x10,
            number: 5,
            ..Open::default()
        };
        let opened = image_of(&bench.record);
        for call in CALLS {
            let wants_open = matches!(call, Call::Feed | Call::Close);
            let right = if wants_open { &opened } else { &closed };
            let refused = |image: Vec<u8>| {
                let mut chip = Chip::of(&bench);
                chip.image = image;
                chip.refused(call, &[1, 0], 2)
            };
            let with = |place: usize, byte: u8| {
                let mut image = right.clone();
                image[place] = byte;
                refused(image)
            };
            for length in [0, 1, 127, 129, 130, 256] {
                let mut image = right.clone();
                image.resize(length, 0);
                assert_eq!(refused(image), 3);
            }
            for number in [0, 4, 5, 255] {
                assert_eq!(with(0, number), 3);
            }
            for n in [0, 9, if part == M32 { 23 } else { 22 }, 64, 74, 255] {
                assert_eq!(with(1, n), 3);
            }
            for place in FLAGS {
                assert_eq!([with(place, 2), with(place, 3), with(place, 255)], [3; 3]);
            }
            for place in spare_places() {
                assert_eq!([with(place, 1), with(place, 0x80)], [3; 2]);
            }
            for (place, byte) in [(4, 0x80), (6, 1), (7, 0x10), (8, 8), (9, 8), (11, 3)] {
                assert_eq!(with(place, byte), 3);
            }
            assert_eq!(with(10, if part == P { 0x80 } else { 1 }), 3);
            // A fact that does not fit, of one that is open and of none.
            assert_eq!([with(76, 8), with(79, 1), with(87, 1)], [3; 3]);
            assert_eq!(
                [with(65, 0x11), with(68, 1), with(75, 1), with(80, 1)],
                [3; 4]
            );
            // The flag alone does not make them fit.
            let facts_of_none = with(64, u8::from(!wants_open));
            assert_eq!(facts_of_none, if wants_open { 3 } else { 13 });
        }
    }
}

/// 3 comes before 1, 2 and 13; behind it the order is that of calls over a record.
#[test]
fn order_of_the_checks() {
    let mut bench = Bench::m();
    let closed = image_of(&bench.record);
    bench.record.open = Open {
        flag: true,
        clocks: 65_534,
        opcode: 0x06,
        ..Open::default()
    };
    let opened = image_of(&bench.record);
    for call in CALLS {
        let looks = call.takes_samples();
        let (right, wrong) = if matches!(call, Call::Feed | Call::Close) {
            (&opened, &closed)
        } else {
            (&closed, &opened)
        };
        let answer = |image: &[u8], memory: usize, area: usize, samples: &[u8], room: usize| {
            let mut chip = Chip::of(&bench);
            chip.image = image.to_vec();
            chip.memory = vec![7; memory];
            chip.area = vec![9; area];
            chip.refused(call, samples, room)
        };
        let long = vec![0; 65_536];
        let flawed = |image: &[u8]| {
            let with = |place: usize, byte: u8| {
                let mut other = image.to_vec();
                other[place] = byte;
                other
            };
            let mut shorter = image.to_vec();
            shorter.pop();
            let longer = join(&[image, &[0]]);
            let list = [(0, 0), (1, 9), (1, 22), (3, 1), (12, 2), (11, 3), (76, 1)];
            let mut list: Vec<Vec<u8>> = list.map(|(place, byte)| with(place, byte)).to_vec();
            list.extend([shorter, longer, Vec::new()]);
            list
        };
        for bad in flawed(right).into_iter().chain(flawed(wrong)) {
            assert_eq!(answer(&bad, 1024, 256, &[0], 1), 3);
            for (memory, area) in [(1023, 256), (0, 256), (1024, 255), (1024, 512)] {
                assert_eq!(answer(&bad, memory, area, &[0], 1), 3);
                assert_eq!(answer(&bad, memory, area, &[16], 0), 3);
            }
            assert_eq!(answer(&bad, 1024, 256, &[16], 1), 3);
            assert_eq!(answer(&bad, 1024, 256, &[0], 0), 3);
            assert_eq!(answer(&bad, 1024, 256, &long, 65_536), 3);
        }
        for (memory, area) in [(1023, 256), (1025, 256), (1024, 255), (1024, 512)] {
            assert_eq!(answer(right, memory, area, &[16], 1), 1);
            assert_eq!(answer(wrong, memory, area, &[16], 1), 1);
        }
        let told = |first: u8| if looks { first } else { 13 };
        assert_eq!(answer(wrong, 1024, 256, &[0], 0), told(1));
        assert_eq!(answer(wrong, 1024, 256, &long, 65_536), told(1));
        assert_eq!(answer(wrong, 1024, 256, &[16], 1), told(2));
        assert_eq!(answer(wrong, 1024, 256, &[0], 1), 13);
        if looks {
            assert_eq!(answer(right, 1024, 256, &[16, 0], 1), 1);
            assert_eq!(answer(right, 1024, 256, &[16], 1), 2);
        }
    }
    // Clocks of all chunks together; too many in the image are 3.
    let mut chip = Chip::of(&bench);
    assert_eq!(chip.refused(Call::Feed, &[0, 0], 2), 1);
    assert_eq!(chip.call(Call::Feed, &[0]).0, 0);
    assert_eq!(chip.refused(Call::Feed, &[0], 1), 1);
    chip.image[68..72].copy_from_slice(&65_536u32.to_le_bytes());
    assert_eq!(chip.refused(Call::Feed, &[0], 1), 3);
    assert_eq!(chip.refused(Call::Feed, &[], 0), 3);
}

/// A chip over its image and one over its record go the same way.
#[test]
fn over_an_image_as_over_its_record() {
    let mut rng = Rng::new(21);
    for part in PARTS {
        let bench = Bench::new(part.number, 10).marked();
        let mut chip = Chip::of(&bench);
        let (mut record, mut memory, mut area) = (bench.record, bench.memory, bench.area);
        let mut kept = None;
        let (mut done, mut open_for) = (0, 0);
        for _ in 0..6_000 {
            let opcode = rng.pick(&part.opcodes());
            let plan = second::compose::Plan::default();
            let mut samples = second::compose::compose(&mut rng, part, &record, opcode, &[], &plan);
            if record.open.flag {
                samples.truncate(rng.below(12));
                open_for += 1;
            }
            let call = match rng.below(12) {
                0 => Call::PowerCycle,
                1 | 2 => Call::Open,
                3 | 4 if open_for > 6 => Call::Close,
                3..=7 => Call::Feed,
                _ => Call::Transact,
            };
            let mut output = vec![0xA5; samples.len() + 2];
            let (answer, counts) = match call {
                Call::Transact => {
                    transact(&mut record, &mut memory, &mut area, &samples, &mut output)
                }
                Call::PowerCycle => power_cycle(&mut record, &mut memory, &mut area),
                Call::Open => chunks::open(&mut record, &memory, &area, &mut kept),
                Call::Feed => chunks::feed(
                    &mut record,
                    &mut memory,
                    &mut area,
                    &mut kept,
                    &samples,
                    &mut output,
                ),
                Call::Close => chunks::close(&mut record, &mut memory, &mut area, &mut kept),
            };
            if call == Call::Close {
                open_for = 0;
            }
            assert_eq!(chip.call(call, &samples), (answer.number(), counts));
            assert_eq!(chip.image, image_of(&record));
            assert_eq!(chip.output, output);
            assert!(chip.memory == memory && chip.area == area);
            done += u32::from(answer == Answer::Done);
        }
        assert!(done > 1000, "{done}");
    }
}

/// What is made for a flaw shows it.
#[test]
fn made_for_the_flaw_they_show() {
    let mut rng = Rng::new(8);
    for _ in 0..3 {
        for (part, flaw, call) in Flaw::list(&mut rng) {
            let probe = flaw.probe(&mut rng, part, call);
            assert_eq!(probe.task, Task::Image(call));
            let found = flaws(&probe.image);
            let shown = |&(other, found): &(_, Flaw)| {
                found == flaw && (other == part || matches!(flaw, Flaw::Part(_) | Flaw::Length(0)))
            };
            assert!(found.iter().any(shown), "{flaw:?} {found:?}");
            let outcome = probe.run().unwrap();
            assert_eq!(outcome.answer, Answer::State);
            assert_eq!(outcome.image, probe.image);
        }
    }
    for part in PARTS {
        assert!(flaws(&image_of(&Bench::new(part.number, 10).record)).is_empty());
        for birth in Birth::list(part) {
            let probe = birth.probe(&mut rng, part);
            let answer = probe.run().unwrap().answer;
            let expected = match birth {
                Birth::Length(_) | Birth::Longer => Answer::State,
                Birth::LengthAndN | Birth::LengthAndIdentity => Answer::State,
                Birth::Below | Birth::Above | Birth::Identity(_) => Answer::Size,
                Birth::Unique(_) if part.number != P => Answer::Size,
                _ => Answer::Done,
            };
            assert_eq!(answer, expected, "{birth:?}");
        }
    }
    // Two things at once are no flaw alone.
    let mut image = image_of(&Bench::m().record);
    image[4] = 0x80;
    let m = find(M).unwrap();
    assert_eq!(flaws(&image), [(m, Flaw::Field(Field::Status, 0x80))]);
    image[40] = 1;
    assert!(flaws(&image).is_empty());
    image[4] = 0;
    assert_eq!(flaws(&image), [(m, Flaw::Spare(40))]);
}

/// A fresh chip in a probe, and what goes on from it.
#[test]
fn fresh_chips_in_probes() {
    let m = find(M).unwrap();
    let first = Probe {
        task: Task::Fresh(m),
        goes_on: false,
        seed: 3,
        n: 10,
        image: vec![0x77; 128],
        memory_bytes: 1024,
        area_bytes: 256,
        output_bytes: 5,
        identity_bytes: 4,
        unique_bytes: 8,
        samples: vec![200, 201, 202, 203, 1, 2, 3, 4, 5, 6, 7, 8, 99],
    };
    let going_on = |task: Task, samples: &[u8]| Probe {
        task,
        goes_on: true,
        n: 0,
        image: Vec::new(),
        output_bytes: samples.len(),
        identity_bytes: 0,
        unique_bytes: 0,
        samples: samples.to_vec(),
        ..first.clone()
    };
    let bad = Probe {
        identity_bytes: 3,
        n: 10,
        ..going_on(Task::Fresh(m), &[1, 2, 3])
    };
    let list = [
        first.clone(),
        going_on(Task::Image(Call::Transact), &on(1, &[0x06])),
        bad,
        going_on(Task::Image(Call::PowerCycle), &[]),
        Probe {
            image: vec![0x5A; 3],
            ..first.clone()
        },
    ];
    let bytes: Vec<u8> = list.iter().flat_map(Probe::to_bytes).collect();
    let text = second::probe::probe_text(&bytes);
    let lines: Vec<Vec<&str>> = text.lines().map(|line| line.split(' ').collect()).collect();
    let chip = format!(
        "010A00000000000800050001FF000000C8C9CACB000000000102030405060708{}",
        "00".repeat(96)
    );
    let fresh = chip.replacen("FF", "00", 1);
    let latched = chip.replacen("FF", "01", 1);
    let answers: Vec<&str> = lines.iter().map(|line| line[1]).collect();
    assert_eq!(answers, ["0", "0", "1", "0", "3"]);
    let images: Vec<&str> = lines.iter().map(|line| line[7]).collect();
    assert_eq!(images, [&fresh[..], &latched, &latched, &fresh, "5A5A5A"]);
    assert!(lines.iter().all(|line| line.len() == 11));
    // Memory, area and output are filled and left as they are.
    let output: Vec<u8> = (0..5u64).map(|i| (3 + 11 + i * 13) as u8).collect();
    let digest = |bytes: &[u8]| format!("{:08X}", second::compact::digest(bytes));
    let memory: Vec<u8> = (0..1024u64).map(|i| (3 + i * 7 + i / 251) as u8).collect();
    let area: Vec<u8> = (0..256u64).map(|i| (3 + 3 + i * 5) as u8).collect();
    for line in [&lines[0], &lines[4]] {
        assert_eq!(line[8..], [digest(&memory), digest(&area), digest(&output)]);
    }
}

/// What the coverage of images tells of these calls when some are left out and what
/// others leave is changed.
fn coverage_of(
    list: &[Probe],
    keep: impl Fn(&Probe) -> bool,
    change: impl Fn(&Probe, &mut Outcome),
) -> (String, bool) {
    let mut runner = Runner::default();
    let mut reached = imaged::Reached::default();
    for probe in list {
        let mut outcome = runner.run(probe).expect("a probe that runs");
        if keep(probe) {
            change(probe, &mut outcome);
            reached.add(probe, &outcome);
        }
    }
    let mut text = String::new();
    let complete = reached.show(&mut text);
    (text, complete)
}

#[test]
fn coverage_misses_what_is_left_out() {
    let list = image_list(1, 1000);
    let (text, complete) = coverage_of(&list, |_| true, |_, _| {});
    assert!(complete, "{text}");
    let without = |left_out: &dyn Fn(&Probe) -> bool, missing: &str| {
        let single = |probe: &Probe| !probe.goes_on && left_out(probe);
        let (text, complete) = coverage_of(&list, |probe| !single(probe), |_, _| {});
        assert!(!complete, "{missing}");
        assert!(text.contains(missing), "{missing} {text}");
    };
    let shows = |probe: &Probe, flaw: Flaw| {
        let found = flaws(&probe.image);
        found.iter().any(|&(_, other)| other == flaw)
    };
    without(&|probe| shows(probe, Flaw::Spare(127)), " 127=0\n");
    without(&|probe| shows(probe, Flaw::Spare(66)), " 66=0,");
    without(&|probe| shows(probe, Flaw::Flag(64, 2)), " 64 2=0,");
    without(&|probe| shows(probe, Flaw::Length(127)), " 127=0,");
    without(
        &|probe| shows(probe, Flaw::Field(Field::Status, 0x02)),
        " 02=0,",
    );
    let third = |probe: &Probe| probe.task == Task::Fresh(find(M32).unwrap());
    without(
        &|probe| third(probe) && probe.identity_bytes == 8,
        "identity +4=0,",
    );
    without(
        &|probe| probe.samples.len() > 65_535 && valid(&probe.image).is_some(),
        "1 (clocks)=0,",
    );
}

#[test]
fn coverage_sees_what_is_wrong() {
    let list = image_list(2, 1000);
    let wrong = |change: &dyn Fn(&Probe, &mut Outcome)| {
        let (text, complete) = coverage_of(&list, |_| true, change);
        let counted = !text.contains("or not what they should: 0\n");
        assert!(!(counted && complete));
        counted
    };
    assert!(!wrong(&|_, _| {}));
    assert!(wrong(&|_, outcome| outcome.counts.rest += 1));
    assert!(wrong(&|probe, outcome| {
        if matches!(probe.task, Task::Fresh(_)) && outcome.answer == Answer::Done {
            outcome.image[100] = 1;
        }
    }));
    assert!(wrong(&|_, outcome| {
        if outcome.answer == Answer::State && !outcome.image.is_empty() {
            outcome.image[0] ^= 1;
        }
    }));
    assert!(wrong(&|probe, outcome| {
        if probe.task == Task::Image(Call::Close) && outcome.answer == Answer::Done {
            outcome.image[65] = 2;
        }
    }));
    assert!(wrong(&|probe, outcome| {
        if probe.task == Task::Image(Call::Feed) && outcome.answer == Answer::Size {
            outcome.answer = Answer::Turn;
        }
    }));
}
