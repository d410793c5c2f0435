//! Requests to the host half as a file: the lines, where a file is cut, the
//! faults of a request, and what the made requests hold.

mod common;
use common::*;
use second::answer::Answer;
use second::ask::{request_list, requests};
use second::compact::digest;
use second::coverage::of_requests;
use second::faults::{faults, OF_BUILD, PAIRS_OF_BUILD};
use second::request::{host_text, Call, Request};
use second::table::{look_up, Data};

/// A head laid out by hand, byte for byte, and its data.
fn raw(first: [u8; 5], numbers: [u32; 3], data: &[u8]) -> Vec<u8> {
    let mut bytes = first.to_vec();
    bytes.extend([0xEE, 0xDD, 0xCC]);
    for number in numbers {
        bytes.extend(number.to_le_bytes());
    }
    bytes.extend((data.len() as u32).to_le_bytes());
    bytes.extend(data);
    bytes
}

/// Part M, 03 in mode 1, one byte, exact room: nothing is wrong.
fn good() -> Request {
    Request {
        call: Call::Build,
        part_or_wires: 1,
        opcode: 0x03,
        mode: 1,
        configuration2: 0,
        address: 0,
        number: 1,
        room: 40,
        data: Vec::new(),
    }
}

/// The number of the answer.
fn answer(request: &Request) -> u8 {
    request.run().answer.number()
}

/// The numbers of all faults.
fn fault_numbers(request: &Request) -> Vec<u8> {
    faults(request).into_iter().map(Answer::number).collect()
}

#[test]
fn lines_of_example_a() {
    // Two wires, room for six: 00 00 01 02 and two bytes kept.
    let mut file = raw([1, 1, 0x06, 2, 0], [0, 0, 6], &[]);
    // Four wires, room for two: 00 06.
    file.extend(raw([1, 1, 0x06, 4, 0], [0, 0, 2], &[]));
    // One wire, room for eight, then for three.
    file.extend(raw([1, 1, 0x06, 1, 0], [0, 0, 8], &[]));
    file.extend(raw([1, 1, 0x06, 1, 0], [0, 0, 3], &[]));
    assert_eq!(
        host_text(&file),
        "1 0 4 9282FEEB\n2 0 2 007F0FCC\n3 0 8 D5C952C6\n4 1 0 80F00ED4\n"
    );
    assert_eq!(digest(&[0, 0, 1, 2, 0xA5, 0xA5]), 0x9282_FEEB);
    assert_eq!(digest(&[0, 6]), 0x007F_0FCC);
    assert_eq!(digest(&[0xA5; 3]), 0x80F0_0ED4);
}

#[test]
fn lines_of_other_builds() {
    // M, memory write of 5A at 0 in mode 1; the number is ignored.
    let mut file = raw([1, 1, 0x02, 1, 0xFF], [0, 7, 41], &[0x5A]);
    // P, EB in mode 1 at ABCDEF, one byte: 8, 6, 6 and 2 clocks; data is ignored.
    file.extend(raw([1, 2, 0xEB, 1, 0], [0xAB_CDEF, 1, 22], &[1, 2]));
    // The refusals in their order, each with the next one behind it.
    file.extend(raw([1, 4, 0x4B, 1, 0x10], [0x100_0000, 0, 0], &[]));
    file.extend(raw([1, 1, 0x4B, 1, 0x10], [0x100_0000, 0, 0], &[]));
    file.extend(raw([1, 1, 0x4B, 1, 0x10], [0xFF_FFFF, 0, 0], &[]));
    file.extend(raw([1, 1, 0x4B, 1, 0x0F], [0xFF_FFFF, 0, 0], &[]));
    file.extend(raw([1, 1, 0x65, 1, 0], [0, 9, 0], &[]));
    file.extend(raw([1, 1, 0x65, 1, 0], [0, 8, 0], &[]));
    assert_eq!(
        host_text(&file),
        "1 0 40 55CEFA74\n2 0 22 9B9861F1\n3 5 0 00000001\n4 7 0 00000001\n\
         5 10 0 00000001\n6 4 0 00000001\n7 11 0 00000001\n8 1 0 00000001\n"
    );
}

#[test]
fn lines_of_gatherings() {
    // What the wires carry in examples (b) and (d): A5, but here 3C to be seen.
    let mut file = raw([2, 4, 0, 0, 0], [0, 0, 3], &[0, 0, 0xF3, 0, 0xFC, 0xF1]);
    let one = [0x20, 0x20, 0x22, 0x22, 0x22, 0x22, 0x20, 0x20];
    file.extend(raw([2, 1, 9, 9, 9], [9, 9, 3], &one));
    // Two wires, 0F F0, exact room, then one short, then a stray sample as well.
    let two = [0x30, 0x30, 0x33, 0x33, 0x33, 0x33, 0x30, 0x30];
    file.extend(raw([2, 2, 0, 0, 0], [0, 0, 2], &two));
    file.extend(raw([2, 2, 0, 0, 0], [0, 0, 1], &two));
    file.extend(raw([2, 2, 0, 0, 0], [0, 0, 1], &join(&[&two, &[0x34]])));
    file.extend(raw([2, 3, 0, 0, 0], [0, 0, 1], &join(&[&two, &[0x34]])));
    // Nothing to gather needs no room.
    file.extend(raw([2, 1, 0, 0, 0], [0, 0, 0], &one[..7]));
    assert_eq!(
        host_text(&file),
        "1 0 1 4D3BB0DE\n2 0 1 4D3BB0DE\n3 0 2 008E1467\n4 1 0 000100E5\n\
         5 2 0 000100E5\n6 5 0 000100E5\n7 0 0 00000001\n"
    );
}

#[test]
fn a_request_goes_there_and_back() {
    let request = Request {
        part_or_wires: 0x11,
        opcode: 0x22,
        mode: 0x33,
        configuration2: 0x44,
        address: 0x8765_4321,
        number: 0xFEDC_BA98,
        room: 0x1_2345,
        data: vec![7, 8, 9],
        ..good()
    };
    let bytes = request.to_bytes();
    let expected = [
        1, 0x11, 0x22, 0x33, 0x44, 0, 0, 0, 0x21, 0x43, 0x65, 0x87, 0x98, 0xBA, 0xDC, 0xFE, 0x45,
        0x23, 0x01, 0x00, 3, 0, 0, 0, 7, 8, 9,
    ];
    assert_eq!(bytes, expected);
    let mut left = &bytes[..];
    assert_eq!(Request::take(&mut left), Some(request));
    assert!(left.is_empty());
    for request in request_list(4, 300) {
        let bytes = request.to_bytes();
        assert_eq!(Request::take(&mut &bytes[..]), Some(request));
    }
}

#[test]
fn cut_files() {
    assert_eq!(host_text(&[]), "");
    let enable = raw([1, 1, 0x06, 4, 0], [0, 0, 2], &[]);
    let write = raw([1, 1, 0x01, 4, 0], [0, 0, 0], &[4, 5]);
    let whole = join(&[&enable, &write]);
    let first = "1 0 2 007F0FCC\n";
    assert_eq!(host_text(&whole), format!("{first}2 11 0 00000001\n"));
    for length in 1..24 {
        assert_eq!(host_text(&whole[..length]), "cut\n");
    }
    assert_eq!(host_text(&whole[..24]), first);
    for length in 25..whole.len() {
        assert_eq!(host_text(&whole[..length]), format!("{first}cut\n"));
    }
    // An unknown call ends the file, whatever follows.
    for call in [0, 3, 255] {
        let strange = raw([call, 1, 0x06, 4, 0], [0, 0, 2], &[]);
        let file = join(&[&enable, &strange, &enable]);
        assert_eq!(host_text(&file), format!("{first}cut\n"));
    }
    // 2^20 bytes of buffer or data are taken, one more is not.
    let long = |room: u32, data: usize| {
        let text = host_text(&raw([2, 1, 0, 0, 0], [0, 0, room], &vec![0; data]));
        text.split(' ').nth(1).map(String::from)
    };
    assert_eq!(long(1 << 20, 1 << 20), Some(String::from("0")));
    assert_eq!(long((1 << 20) + 1, 0), None);
    assert_eq!(long(0, (1 << 20) + 1), None);
}

#[test]
fn faults_by_hand() {
    let check = |request: Request, expected: &[u8]| {
        assert_eq!(fault_numbers(&request), expected, "{request:?}");
        let first = expected.first().copied().unwrap_or(0);
        assert_eq!(answer(&request), first, "{request:?}");
    };
    check(good(), &[]);
    let wrong = Request {
        opcode: 0x4B,
        address: 0x100_0000,
        configuration2: 0x10,
        number: 0,
        room: 31,
        ..good()
    };
    check(wrong.clone(), &[7, 10, 4, 1]);
    // In mode 2 there is no 4B; what it would be in mode 1 is still behind.
    check(Request { mode: 2, ..wrong }, &[5, 7, 10, 4, 1]);
    // 05 is no command with an address; 11 takes the clocks as asked.
    let status = Request {
        opcode: 0x05,
        address: u32::MAX,
        configuration2: 0xFF,
        number: 5,
        room: 47,
        ..good()
    };
    check(
        Request {
            room: 48,
            ..status.clone()
        },
        &[11],
    );
    check(status, &[11, 1]);
    let identity = Request {
        part_or_wires: 2,
        opcode: 0x9F,
        address: 0x100_0000,
        number: 9,
        room: 0,
        ..good()
    };
    check(identity, &[7, 11, 1]);
    // A fixed-size write not full, with the number of a full one.
    let serial = Request {
        opcode: 0xC2,
        mode: 4,
        number: 8,
        data: vec![1; 7],
        room: 15,
        ..good()
    };
    check(serial, &[4, 1]);
    // An opcode that no table has is 5 alone.
    check(
        Request {
            opcode: 0x0A,
            room: 0,
            address: u32::MAX,
            ..good()
        },
        &[5],
    );
    // 32-bit clocks would come out at 32 + 8.
    check(
        Request {
            number: (1 << 29) + 1,
            room: 200,
            ..good()
        },
        &[1],
    );
    let gather = Request {
        call: Call::Gather,
        data: join(&[&out(1, &[1, 2]), &[0x21]]),
        room: 1,
        ..good()
    };
    check(gather.clone(), &[2, 1]);
    check(
        Request {
            part_or_wires: 3,
            ..gather
        },
        &[5, 2, 1],
    );
}

/// The faults are worked out apart from the host half; the first is the answer.
#[test]
fn the_first_fault_is_the_answer() {
    for seed in 0..6 {
        for request in request_list(seed, 1000) {
            let outcome = request.run();
            let first = faults(&request).first().copied().unwrap_or(Answer::Done);
            assert_eq!(outcome.answer, first, "{request:?}");
            let told = outcome.told as usize;
            assert!(outcome.answer == Answer::Done || told == 0);
            assert!(outcome.buffer[told..].iter().all(|&byte| byte == 0xA5));
        }
    }
}

/// The pairs are in the order of checking, and all but two of fifteen.
#[test]
fn pairs_of_refusals() {
    let mut expected = Vec::new();
    for (place, &earlier) in OF_BUILD.iter().enumerate() {
        for &later in &OF_BUILD[place + 1..] {
            let numbers = (earlier.number(), later.number());
            if numbers != (10, 11) && numbers != (4, 11) {
                expected.push((earlier, later));
            }
        }
    }
    assert_eq!(expected, PAIRS_OF_BUILD);
}

#[test]
fn same_seed_same_requests() {
    assert_eq!(requests(5, 300), requests(5, 300));
    assert_ne!(requests(5, 300), requests(6, 300));
    assert!(requests(5, 300).starts_with(&requests(5, 200)));
    assert!(requests(1, 0).is_empty());
    // A fixed digest shows that no machine makes other bytes.
    assert_eq!(format!("{:08X}", digest(&requests(1, 500))), REQUESTS);
}
const REQUESTS: &str = "2B193D8B";

#[test]
fn coverage_of_the_default_requests() {
    for seed in 1..5 {
        let (text, complete) = of_requests(seed, 3000);
        assert!(complete, "{text}");
        assert!(text.ends_with("coverage complete\n"));
        assert!(requests(seed, 3000).len() < 300_000);
    }
    let (text, complete) = of_requests(1, 20);
    assert!(!complete);
    assert!(text.ends_with("coverage incomplete\n"));
}

/// The arguments that a comparison should meet.
#[test]
fn requests_meet_the_edges() {
    let list = request_list(1, 3000);
    let some = |least: usize, wanted: &dyn Fn(&Request) -> bool| {
        let count = list.iter().filter(|request| wanted(request)).count();
        assert!(count >= least, "{count} of {least}");
    };
    let builds = |r: &Request| r.call == Call::Build;
    let gathers = |r: &Request| r.call == Call::Gather;
    let command = |r: &Request| match r.call {
        Call::Build => look_up(r.part_or_wires, r.opcode, r.mode),
        Call::Gather => None,
    };
    for part in [0, 4, 5, 255] {
        some(3, &|r| builds(r) && r.part_or_wires == part);
    }
    for mode in [0, 3, 5] {
        some(10, &|r| builds(r) && r.mode == mode);
    }
    some(10, &|r| builds(r) && r.part_or_wires == 2 && r.mode == 2);
    for address in [0xFF_FFFF, 0x100_0000, u32::MAX] {
        some(20, &|r| {
            command(r).is_some_and(|c| c.address) && r.address == address
        });
        some(20, &|r| {
            command(r).is_some_and(|c| !c.address) && r.address == address && answer(r) == 0
        });
    }
    for configuration2 in [0x0F, 0x10, 0xFF] {
        some(5, &|r| {
            command(r).is_some() && r.opcode == 0x4B && r.configuration2 == configuration2
        });
        some(20, &|r| {
            r.opcode != 0x4B && r.configuration2 == configuration2 && answer(r) == 0
        });
    }
    // Bytes about the fixed size, and what is ignored.
    for more in [-1i64, 0, 1] {
        some(20, &|r| match command(r).map(|c| c.data) {
            Some(Data::ReadFixed(size)) => i64::from(r.number) == size as i64 + more,
            _ => false,
        });
        some(20, &|r| match command(r).map(|c| c.data) {
            Some(Data::WriteFixed(size)) => r.data.len() as i64 == size as i64 + more,
            _ => false,
        });
        some(3, &|r| match command(r).map(|c| c.data) {
            Some(Data::ReadMapped) => i64::from(r.number) == 8 + more,
            _ => false,
        });
    }
    let answered = |r: &Request, number: u8, data: Data| {
        command(r).is_some_and(|c| c.data == data) && answer(r) == number
    };
    some(3, &|r| answered(r, 0, Data::ReadMapped) && r.number == 8);
    some(3, &|r| answered(r, 11, Data::ReadMapped) && r.number == 9);
    some(3, &|r| {
        answered(r, 1, Data::ReadRunning) && r.number >= 1 << 29 && r.room > 100
    });
    some(10, &|r| {
        answered(r, 0, Data::ReadRunning) && !r.data.is_empty()
    });
    some(10, &|r| answered(r, 0, Data::WriteRunning) && r.number > 0);
    some(2, &|r| {
        answered(r, 0, Data::WriteRunning) && (100..500).contains(&r.data.len())
    });
    some(2, &|r| {
        answered(r, 0, Data::ReadRunning) && (100..500).contains(&r.number)
    });
    some(5, &|r| {
        answered(r, 11, Data::None) && r.number == 0 && !r.data.is_empty()
    });
    some(5, &|r| {
        answered(r, 11, Data::None) && r.number > 0 && r.data.is_empty()
    });
    // Room exact, one more, one short, none.
    let told = |r: &Request| r.run().told as usize;
    some(200, &|r| builds(r) && answer(r) == 0 && told(r) == r.room);
    some(100, &|r| {
        builds(r) && answer(r) == 0 && told(r) + 1 == r.room
    });
    let longer = |r: &Request| Request {
        room: r.room + 1,
        ..r.clone()
    };
    some(20, &|r| {
        builds(r) && answer(r) == 1 && answer(&longer(r)) == 0
    });
    some(20, &|r| builds(r) && answer(r) == 1 && r.room == 0);
    some(50, &|r| {
        gathers(r) && answer(r) == 0 && told(r) == r.room && r.room > 0
    });
    some(20, &|r| {
        gathers(r) && answer(r) == 1 && answer(&longer(r)) == 0
    });
    some(10, &|r| gathers(r) && answer(r) == 1 && r.room == 0);
}

/// About the most clocks, on every number of wires, with room enough.
#[test]
fn requests_about_the_most_clocks() {
    let list = request_list(1, 3000);
    for wires in [1, 2, 4] {
        // Clocks before the data of a running command are whole bytes on two
        // wires and even on four, so that only 4B comes out at 65,535.
        let most = match wires {
            1 => 65_535,
            2 => 65_532,
            _ => 65_534,
        };
        let large: Vec<&Request> = list
            .iter()
            .filter(|r| r.call == Call::Build && r.room > 60_000)
            .filter(|r| {
                look_up(r.part_or_wires, r.opcode, r.mode).is_some_and(|c| c.rest_wires == wires)
            })
            .collect();
        assert!((2..30).contains(&large.len()));
        assert!(large.iter().any(|r| r.run().told == most));
        assert!(large.iter().any(|r| r.room >= 65_536 && answer(r) == 1));
        for r in large {
            assert!(r.room < 66_000);
        }
    }
}

/// The samples that are gathered: undriven clocks inside, unfinished bytes, and
/// strays at either end.
#[test]
fn gatherings_meet_the_edges() {
    let list = request_list(1, 3000);
    for wires in [1u8, 2, 4] {
        let per_byte = 8 / usize::from(wires);
        let mine: Vec<&Request> = list
            .iter()
            .filter(|r| r.call == Call::Gather && r.part_or_wires == wires)
            .collect();
        let done = || mine.iter().filter(|r| answer(r) == 0);
        let driven = |r: &Request| r.data.iter().filter(|&&sample| sample != 0).count();
        assert!(done().count() > 50);
        assert!(done().filter(|r| driven(r) % per_byte != 0).count() > 5);
        let inside = |r: &Request| {
            let mut clocks = 0;
            r.data.iter().any(|&sample| {
                clocks += usize::from(sample != 0);
                sample == 0 && clocks % per_byte != 0
            }) && driven(r) >= per_byte
        };
        assert!(done().filter(|r| inside(r)).count() > 5);
        let stray = |sample: Option<&u8>| {
            let sample = sample.copied().unwrap_or(0);
            !matches!(
                (wires, sample),
                (_, 0) | (1, 0x20 | 0x22) | (2, 0x30..=0x33) | (4, 0xF0..)
            )
        };
        let refused = || mine.iter().filter(|r| answer(r) == 2);
        assert!(refused().filter(|r| stray(r.data.first())).count() > 3);
        assert!(refused().filter(|r| stray(r.data.last())).count() > 3);
    }
    for wires in [0, 3, 5, 8, 255] {
        let other = |r: &&Request| r.call == Call::Gather && r.part_or_wires == wires;
        assert!(list.iter().filter(other).count() > 3);
    }
}
