//! The table of parts: its numbers, and rows that agree with themselves.

mod common;
use common::*;
use second::parts::{find, of_family, others, strangers, Family, FIRST_FREE_NUMBER, PARTS};

#[test]
fn numbers_run_from_1() {
    for (place, part) in PARTS.into_iter().enumerate() {
        assert_eq!(usize::from(part.number), place + 1);
        assert_eq!(find(part.number), Some(part));
        assert_eq!(others(part.number).len(), PARTS.len() - 1);
        assert!(!others(part.number).contains(&part));
        assert!(of_family(part.family).contains(&part));
        assert!(!strangers(part.number).contains(&part));
    }
    assert_eq!(FIRST_FREE_NUMBER, 4);
    for number in [0, 4, 5, 255] {
        assert_eq!(find(number), None);
        assert_eq!(others(number), PARTS);
        assert_eq!(strangers(number), PARTS);
    }
    let row = |number: u8| find(number).map(|part| (part.word, part.family));
    assert_eq!(row(M), Some(("M", Family::Mram)));
    assert_eq!(row(P), Some(("P", Family::Psram)));
    assert_eq!(row(M32), Some(("M32", Family::Mram)));
    let numbers = |list: Vec<&second::parts::Part>| -> Vec<u8> {
        list.into_iter().map(|part| part.number).collect()
    };
    assert_eq!(numbers(of_family(Family::Mram)), MRAMS);
    assert_eq!(numbers(strangers(M32)), [P]);
    assert_eq!(numbers(strangers(P)), MRAMS);
}

#[test]
fn rows() {
    for part in PARTS {
        // One bit of the area protection for each section.
        assert_eq!(part.area_bytes, 8 * part.section_bytes);
        assert!(part
            .wrap_lengths
            .iter()
            .all(|length| length.is_power_of_two()));
        assert!(part.wrap_lengths.len() <= 8);
        for n in [part.least_n, part.most_n] {
            assert_eq!(Bench::new(part.number, n).cycle(), 0);
        }
        // What opcode 65 sends is as long as the map says.
        for &(address, _, bytes) in part.register_map {
            let mut chip = Bench::new(part.number, part.least_n);
            assert_eq!(chip.say_and(&join(&[&[0x65], &at(address)]), 8 + 80), 0);
            assert_eq!(chip.driven().len(), 8 * bytes);
        }
    }
}
