//! How bytes travel on one, two or four wires (document 01, "Samples").
//!
//! A clock is one sample; a byte takes eight, four or two clocks. Every number
//! here is named for the one it counts.

/// Clocks that `bits` bits take on so many wires.
pub fn clocks_for_bits(bits: usize, wires: u8) -> usize {
    bits / usize::from(wires)
}

/// Clocks that so many whole bytes take.
pub fn clocks_for_bytes(bytes: usize, wires: u8) -> usize {
    bytes * clocks_for_bits(8, wires)
}

/// The levels of the lowest `wires` wires.
fn mask(wires: u8) -> u8 {
    match wires {
        1 => 0x01,
        2 => 0x03,
        _ => 0x0F,
    }
}

/// The input samples of one byte, most significant bits first, unused wires low.
pub fn spread(byte: u8, wires: u8) -> Vec<u8> {
    let clocks = clocks_for_bits(8, wires);
    (0..clocks)
        .map(|clock| levels(byte, clock, wires))
        .collect()
}

/// The levels that one byte puts on the lowest wires at its clock number `clock`.
/// On two and four wires the piece of the byte, read as a number, is the sample.
fn levels(byte: u8, clock: usize, wires: u8) -> u8 {
    let below = 8 - usize::from(wires) * (clock + 1);
    (byte >> below) & mask(wires)
}

/// The whole bytes in a run of input samples. Wires not in use are dropped, and
/// so is a last byte whose clocks did not all arrive.
pub fn collect(samples: &[u8], wires: u8) -> Vec<u8> {
    samples
        .chunks_exact(clocks_for_bits(8, wires))
        .map(|clocks| {
            clocks
                .iter()
                .fold(0u8, |byte, sample| (byte << wires) | (sample & mask(wires)))
        })
        .collect()
}

/// The bits of a run of input samples as one number, the first the highest. It is
/// asked for what is less than an address, so that it has room.
pub fn as_number(samples: &[u8], wires: u8) -> u32 {
    samples.iter().fold(0, |number, sample| {
        (number << wires) | u32::from(sample & mask(wires))
    })
}

/// The input samples of the lowest bits of a number, so many clocks of them, the
/// highest first and unused wires low.
pub fn spread_number(number: u32, clocks: usize, wires: u8) -> Vec<u8> {
    (0..clocks)
        .rev()
        .map(|after| (number >> (usize::from(wires) * after)) as u8 & mask(wires))
        .collect()
}

/// What the device drives while it sends `bytes` for so many clocks: the wires it
/// drives in the high half, their levels in the low half. The last byte may be
/// cut; its first bits are driven all the same. Clocks past the bytes are not
/// asked for by any caller and come out undriven.
pub fn drive(bytes: &[u8], clocks: usize, wires: u8) -> Vec<u8> {
    let per_byte = clocks_for_bits(8, wires);
    (0..clocks)
        .map(|clock| match bytes.get(clock / per_byte) {
            None => 0x00,
            Some(&byte) => {
                let now = levels(byte, clock % per_byte, wires);
                match wires {
                    // One wire: the device answers on wire 1, not on wire 0.
                    1 => 0x20 | (now << 1),
                    2 => 0x30 | now,
                    _ => 0xF0 | now,
                }
            }
        })
        .collect()
}

/// Whether a device that answers on so many wires can put out this byte at all.
pub fn can_be_driven(output: u8, wires: u8) -> bool {
    match wires {
        1 => output == 0x20 || output == 0x22,
        2 => (0x30..=0x33).contains(&output),
        _ => output >= 0xF0,
    }
}

/// The levels that a driven output byte carries, as the low bits of a number.
pub fn driven_levels(output: u8, wires: u8) -> u8 {
    match wires {
        1 => (output >> 1) & 1,
        _ => output & mask(wires),
    }
}
