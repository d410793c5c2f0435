//! The host half: refusals and their order, lengths, gathering, and a round trip
//! through the device for every command.

mod common;
use common::*;
use second::answer::Answer;
use second::host::{build, gather};
use second::parts::find;
use second::table::Data;

/// A request with nothing wrong in it: part M, 03, mode 1.
#[derive(Clone, Copy)]
struct Request<'a> {
    part: u32,
    opcode: u32,
    mode: u32,
    address: u32,
    configuration2: u32,
    data: &'a [u8],
    number: u32,
    room: usize,
}

const GOOD: Request = Request {
    part: 1,
    opcode: 0x03,
    mode: 1,
    address: 0,
    configuration2: 0,
    data: &[],
    number: 1,
    room: 100,
};

fn ask(request: Request) -> (u8, Vec<u8>) {
    let mut room = vec![0xA5; request.room];
    let (answer, told) = build(
        request.part,
        request.opcode,
        request.mode,
        request.address,
        request.configuration2,
        request.data,
        request.number,
        &mut room,
    );
    let told = told as usize;
    if answer != Answer::Done {
        assert_eq!(told, 0);
    }
    assert!(room[told..].iter().all(|&byte| byte == 0xA5));
    (answer.number(), room[..told].to_vec())
}

#[test]
fn samples_of_plain_commands() {
    let plain = Request { number: 0, ..GOOD };
    let enable = |mode| {
        ask(Request {
            opcode: 0x06,
            mode,
            ..plain
        })
    };
    assert_eq!(enable(1), (0, vec![0, 0, 0, 0, 0, 1, 1, 0]));
    assert_eq!(enable(2), (0, vec![0, 0, 1, 2]));
    assert_eq!(enable(4), (0, vec![0, 6]));
    let read = ask(Request {
        address: 0x123456,
        number: 2,
        ..GOOD
    });
    let expected = join(&[&on(1, &[0x03, 0x12, 0x34, 0x56]), &[0; 16]]);
    assert_eq!(read, (0, expected));
    let request = Request {
        opcode: 0x4B,
        configuration2: 5,
        ..GOOD
    };
    let expected = join(&[&on(1, &[0x4B, 0, 0, 0]), &[0; 5], &[0; 8]]);
    assert_eq!(ask(request), (0, expected));
    let request = Request {
        part: 2,
        opcode: 0xEB,
        address: 0xABCDEF,
        ..GOOD
    };
    let expected = join(&[
        &on(1, &[0xEB]),
        &on(4, &[0xAB, 0xCD, 0xEF]),
        &[0; 6],
        &[0; 2],
    ]);
    assert_eq!(ask(request), (0, expected));
    let request = Request {
        part: 2,
        opcode: 0x38,
        data: &[0x5A],
        ..GOOD
    };
    let expected = join(&[&on(1, &[0x38]), &on(4, &[0, 0, 0, 0x5A])]);
    assert_eq!(ask(request), (0, expected));
}

#[test]
fn refusal_5() {
    for part in [0, 4, 256, 257, 259, u32::MAX] {
        assert_eq!(ask(Request { part, ..GOOD }).0, 5);
    }
    for mode in [0, 2, 3, 4, 5, 8, 257, u32::MAX] {
        assert_eq!(ask(Request { mode, ..GOOD }).0, 5);
    }
    for opcode in [0x0A, 0xFF, 256, 256 + 3, u32::MAX] {
        assert_eq!(ask(Request { opcode, ..GOOD }).0, 5);
    }
    // P has no mode 2.
    let request = Request {
        part: 2,
        opcode: 0x66,
        number: 0,
        ..GOOD
    };
    assert_eq!(ask(Request { mode: 2, ..request }).0, 5);
    assert_eq!(ask(Request { mode: 4, ..request }).0, 0);
    // 5 comes first of all.
    let all_wrong = Request {
        opcode: 0x0A,
        address: u32::MAX,
        number: 0,
        room: 0,
        ..GOOD
    };
    assert_eq!(ask(all_wrong).0, 5);
}

#[test]
fn refusal_7() {
    assert_eq!(
        ask(Request {
            address: 0xFF_FFFF,
            ..GOOD
        })
        .0,
        0
    );
    assert_eq!(
        ask(Request {
            address: 0x100_0000,
            ..GOOD
        })
        .0,
        7
    );
    // The host does not look at sizes or maps, only at the 24 bits.
    let any = Request {
        opcode: 0x65,
        address: 0xFF_FFFF,
        ..GOOD
    };
    assert_eq!(ask(any).0, 0);
    // Ignored where the command has none; there where its value is ignored.
    let bare = Request {
        opcode: 0x05,
        address: u32::MAX,
        ..GOOD
    };
    assert_eq!(ask(bare).0, 0);
    let identity = Request {
        part: 2,
        opcode: 0x9F,
        address: 0x100_0000,
        ..GOOD
    };
    assert_eq!(ask(identity).0, 7);
    // 7 before 10, 4, 11, 1.
    let wrong = Request {
        opcode: 0x4B,
        address: u32::MAX,
        configuration2: 16,
        number: 0,
        ..GOOD
    };
    assert_eq!(ask(wrong).0, 7);
    let wrong = Request {
        opcode: 0x65,
        address: u32::MAX,
        number: 9,
        room: 0,
        ..GOOD
    };
    assert_eq!(ask(wrong).0, 7);
}

#[test]
fn refusal_10() {
    let area = Request {
        opcode: 0x4B,
        ..GOOD
    };
    assert_eq!(
        ask(Request {
            configuration2: 15,
            ..area
        })
        .0,
        0
    );
    for configuration2 in [16, 256, u32::MAX] {
        assert_eq!(
            ask(Request {
                configuration2,
                ..area
            })
            .0,
            10
        );
        // For no other command.
        assert_eq!(
            ask(Request {
                configuration2,
                ..GOOD
            })
            .0,
            0
        );
        let write = Request {
            opcode: 0x42,
            data: &[1],
            configuration2,
            ..GOOD
        };
        assert_eq!(ask(write).0, 0);
    }
    // 10 before 4 and 1.
    let wrong = Request {
        configuration2: 16,
        number: 0,
        room: 0,
        ..area
    };
    assert_eq!(ask(wrong).0, 10);
}

#[test]
fn refusal_4() {
    // A read of nothing, with data given or not.
    assert_eq!(
        ask(Request {
            number: 0,
            data: &[1],
            ..GOOD
        })
        .0,
        4
    );
    for opcode in [0x05, 0x46, 0x4C, 0x65] {
        assert_eq!(
            ask(Request {
                opcode,
                number: 0,
                ..GOOD
            })
            .0,
            4
        );
    }
    // Writes: no byte, or not full.
    assert_eq!(
        ask(Request {
            opcode: 0x02,
            number: 5,
            ..GOOD
        })
        .0,
        4
    );
    for (opcode, size) in [(0x01, 1), (0x1A, 1), (0x87, 4), (0xC2, 8)] {
        for length in 0..size {
            let data = &[4; 8][..length];
            assert_eq!(
                ask(Request {
                    opcode,
                    data,
                    ..GOOD
                })
                .0,
                4
            );
        }
        let data = &[4; 8][..size];
        assert_eq!(
            ask(Request {
                opcode,
                data,
                ..GOOD
            })
            .0,
            0
        );
    }
    // 4 before 1.
    assert_eq!(
        ask(Request {
            number: 0,
            room: 0,
            ..GOOD
        })
        .0,
        4
    );
}

#[test]
fn refusal_11() {
    for (opcode, size) in [
        (0x05, 1),
        (0x46, 4),
        (0x9F, 4),
        (0x4C, 8),
        (0xC3, 8),
        (0x65, 8),
    ] {
        for number in 1..=size {
            assert_eq!(
                ask(Request {
                    opcode,
                    number,
                    room: 200,
                    ..GOOD
                })
                .0,
                0
            );
        }
        for number in [size + 1, u32::MAX] {
            assert_eq!(
                ask(Request {
                    opcode,
                    number,
                    ..GOOD
                })
                .0,
                11
            );
        }
    }
    for (opcode, size) in [(0x01, 1), (0x1A, 1), (0x87, 4), (0xC2, 8)] {
        let data = &[0; 9][..size + 1];
        assert_eq!(
            ask(Request {
                opcode,
                data,
                ..GOOD
            })
            .0,
            11
        );
    }
    // Commands without data take neither.
    let enable = Request {
        opcode: 0x06,
        number: 0,
        ..GOOD
    };
    assert_eq!(ask(enable).0, 0);
    assert_eq!(
        ask(Request {
            number: 1,
            ..enable
        })
        .0,
        11
    );
    assert_eq!(
        ask(Request {
            data: &[0],
            ..enable
        })
        .0,
        11
    );
    assert_eq!(
        ask(Request {
            data: &[0],
            number: 1,
            room: 0,
            ..enable
        })
        .0,
        11
    );
    let identity = Request {
        part: 2,
        opcode: 0x9F,
        room: 200,
        ..GOOD
    };
    assert_eq!(
        ask(Request {
            number: 8,
            ..identity
        })
        .0,
        0
    );
    assert_eq!(
        ask(Request {
            number: 9,
            ..identity
        })
        .0,
        11
    );
    let register = Request {
        part: 2,
        opcode: 0xB5,
        ..GOOD
    };
    assert_eq!(
        ask(Request {
            number: 2,
            ..register
        })
        .0,
        11
    );
}

#[test]
fn refusal_1() {
    assert_eq!(ask(Request { room: 40, ..GOOD }).0, 0);
    assert_eq!(ask(Request { room: 39, ..GOOD }).0, 1);
    assert_eq!(ask(Request { room: 0, ..GOOD }).0, 1);
    // 32 clocks and eight a byte: 8187 bytes are 65,528 clocks, 8188 are too many.
    let roomy = Request {
        room: 70_000,
        ..GOOD
    };
    assert_eq!(
        ask(Request {
            number: 8187,
            ..roomy
        })
        .1
        .len(),
        65_528
    );
    assert_eq!(
        ask(Request {
            number: 8188,
            ..roomy
        })
        .0,
        1
    );
    assert_eq!(
        ask(Request {
            number: u32::MAX,
            ..roomy
        })
        .0,
        1
    );
    // With seven clocks of wait it comes out at exactly 65,535.
    let area = Request {
        opcode: 0x4B,
        number: 8187,
        ..roomy
    };
    assert_eq!(
        ask(Request {
            configuration2: 7,
            ..area
        })
        .1
        .len(),
        65_535
    );
    assert_eq!(
        ask(Request {
            configuration2: 8,
            ..area
        })
        .0,
        1
    );
    let long = vec![0; 32_764];
    let write = Request {
        opcode: 0x02,
        mode: 4,
        ..roomy
    };
    assert_eq!(
        ask(Request {
            data: &long[..32_763],
            ..write
        })
        .1
        .len(),
        65_534
    );
    assert_eq!(
        ask(Request {
            data: &long,
            ..write
        })
        .0,
        1
    );
}

#[test]
fn a_read_ignores_data_and_a_write_the_number() {
    assert_eq!(
        ask(Request {
            data: &[9; 50],
            ..GOOD
        }),
        ask(GOOD)
    );
    let write = Request {
        opcode: 0x02,
        data: &[9],
        ..GOOD
    };
    assert_eq!(
        ask(Request {
            number: u32::MAX,
            ..write
        }),
        ask(write)
    );
    assert_eq!(ask(Request { number: 0, ..write }), ask(write));
}

fn take(wires: u32, outputs: &[u8], room: usize) -> (u8, Vec<u8>) {
    let mut bytes = vec![0xA5; room];
    let (answer, told) = gather(wires, outputs, &mut bytes);
    if answer != Answer::Done {
        assert_eq!(told, 0);
    }
    assert!(bytes[told as usize..].iter().all(|&byte| byte == 0xA5));
    (answer.number(), bytes[..told as usize].to_vec())
}

#[test]
fn gathering() {
    for wires in [1u8, 2, 4] {
        let outputs = out(wires, &[0xA5, 0x3C]);
        let number = u32::from(wires);
        assert_eq!(take(number, &outputs, 2), (0, vec![0xA5, 0x3C]));
        assert_eq!(take(number, &outputs, 5), (0, vec![0xA5, 0x3C]));
        assert_eq!(take(number, &outputs, 1), (1, vec![]));
        // Undriven clocks are skipped, also inside a byte.
        let spaced: Vec<u8> = outputs.iter().flat_map(|&o| [0, o, 0]).collect();
        assert_eq!(take(number, &spaced, 2), (0, vec![0xA5, 0x3C]));
        // An unfinished byte is dropped and needs no room.
        let cut = &outputs[..outputs.len() - 1];
        assert_eq!(take(number, cut, 1), (0, vec![0xA5]));
        assert_eq!(take(number, &[], 0), (0, vec![]));
        assert_eq!(take(number, &[0; 9], 0), (0, vec![]));
    }
}

#[test]
fn gathering_refusals() {
    for wires in [0, 3, 5, 8, 257, u32::MAX] {
        assert_eq!(take(wires, &[1], 0).0, 5);
    }
    for output in 0..=255u8 {
        let fits = |wires: u32| match wires {
            1 => [0x00, 0x20, 0x22].contains(&output),
            2 => output == 0 || (0x30..=0x33).contains(&output),
            _ => output == 0 || output >= 0xF0,
        };
        for wires in [1, 2, 4] {
            let answer = take(wires, &[output], 0).0;
            assert_eq!(answer, if fits(wires) { 0 } else { 2 });
        }
    }
    // 2 before 1, also when the bad sample comes last.
    let mut outputs = out(1, &[1, 2, 3]);
    outputs.push(0x21);
    assert_eq!(take(1, &outputs, 0).0, 2);
}

/// Host to device and back for every command of all parts in every mode.
#[test]
fn round_trip() {
    for part in [M, P, M32] {
        let row = find(part).expect("a part of the table");
        for &mode in row.modes() {
            for opcode in row.opcodes() {
                let Some(command) = row.command(opcode, mode) else {
                    continue;
                };
                let mut chip = Bench::new(part, 10).marked();
                chip.record.mode = mode;
                chip.record.armed = true;
                chip.record.latch = part != P;
                if part != P {
                    chip.record.configurations = [0, 11, 0x40, 6];
                    chip.record.serial = [1, 2, 3, 4, 5, 6, 7, 8];
                    chip.record.area_protection = 0x10;
                }
                let before = chip.record;
                let address = match opcode {
                    0x65 => 0x40,
                    0xB5 | 0xB1 => 0x10,
                    _ => 0x2A,
                };
                let data: Vec<u8> = match opcode {
                    0x01 => vec![0x2C],
                    0x1A => vec![0x77],
                    0x87 => vec![0, 3, 0x11, 5],
                    0xC2 => vec![8, 7, 6, 5, 4, 3, 2, 1],
                    0xB1 => vec![0x41],
                    _ => vec![0xDE, 0xAD, 0x42],
                };
                let (given, number) = match command.data {
                    Data::None => (&[][..], 0),
                    Data::ReadFixed(size) => (&[][..], size),
                    Data::ReadMapped => (&[][..], 8),
                    Data::ReadRunning => (&[][..], 5),
                    _ => (&data[..], 0),
                };
                let mut room = vec![0; 300];
                let (answer, told) = build(
                    u32::from(part),
                    u32::from(opcode),
                    u32::from(mode),
                    address,
                    11,
                    given,
                    number as u32,
                    &mut room,
                );
                assert_eq!(answer, Answer::Done, "{opcode:02X} in mode {mode}");
                let (answer, counts) = chip.full(&room[..told as usize]);
                assert_eq!(answer, 0, "{opcode:02X} in mode {mode}");
                assert_eq!(counts.rest, 0);
                let clocks = chip.output.len() - 3;
                let mut bytes = vec![0; 64];
                let wires = u32::from(command.rest_wires);
                let (answer, told) = gather(wires, &chip.output[..clocks], &mut bytes);
                assert_eq!(answer, Answer::Done);
                assert_eq!(told as usize, number);
                let bytes = &bytes[..number];
                let place = address as usize;
                let family = if part == P { P } else { M };
                match (family, opcode) {
                    (M, 0x05) => assert_eq!(bytes, [0x02]),
                    (M, 0x14) => assert_eq!(bytes, [0x10]),
                    (M, 0x35) => assert_eq!(bytes, [0]),
                    (M, 0x3F) => assert_eq!(bytes, [11]),
                    (M, 0x44) => assert_eq!(bytes, [0x40]),
                    (M, 0x45) => assert_eq!(bytes, [6]),
                    (M, 0x46) => assert_eq!(bytes, [0, 11, 0x40, 6]),
                    (M, 0x9F) => assert_eq!(bytes, &before.identity[..4]),
                    (M, 0x4C | 0x65) => assert_eq!(bytes, before.unique),
                    (M, 0xC3) => assert_eq!(bytes, before.serial),
                    (M, 0x4B) => assert_eq!(bytes, &chip.area[place..place + 5]),
                    (M, 0x42) => assert_eq!(chip.area[place..place + 3], data),
                    (P, 0x9F) => assert_eq!(bytes, before.identity),
                    (P, 0xB5) => assert_eq!(bytes, [0x60]),
                    (P, 0xB1) => assert_eq!(chip.record.mr0, 0x41),
                    (_, 0x03 | 0x0B | 0xEB | 0x8B) => {
                        assert_eq!(bytes, &chip.memory[place..place + 5]);
                    }
                    (M, 0x02) | (P, 0x02 | 0x82 | 0x38) => {
                        assert_eq!(chip.memory[place..place + 3], data);
                    }
                    (M, 0x01) => assert_eq!(chip.record.status, 0x2C),
                    (M, 0x1A) => assert_eq!(chip.record.area_protection, 0x77),
                    (M, 0x87) => assert_eq!(chip.record.configurations, [0, 3, 0x11, 5]),
                    (M, 0xC2) => assert_eq!(chip.record.serial, [8, 7, 6, 5, 4, 3, 2, 1]),
                    (_, 0x66) => assert!(chip.record.armed),
                    (_, 0x99) => assert_eq!(chip.record.mode, 1),
                    (M, 0x37) => assert_eq!(chip.record.mode, 2),
                    (M, 0x38) | (P, 0x35) => assert_eq!(chip.record.mode, 4),
                    (M, 0xFF) | (P, 0xF5) => assert_eq!(chip.record.mode, 1),
                    (M, 0x06) => assert!(chip.record.latch),
                    (M, 0x04) => assert!(!chip.record.latch),
                    (M, 0xB9) => assert!(chip.record.asleep),
                    (P, 0xC0) => assert!(chip.record.toggle),
                    (M, 0x00 | 0xAB) => {
                        assert!(!chip.record.armed);
                        assert_eq!(chip.record.latch, before.latch);
                    }
                    _ => panic!("no expectation for {opcode:02X}"),
                }
            }
        }
    }
}
