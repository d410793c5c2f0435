//! The device record, an open transaction included, as an image of 128 bytes, and
//! the calls over an image (document 02, P8).

use crate::answer::{Answer, Counts};
use crate::chunks;
use crate::device::{self, state_fits, Record};
use crate::facts::Open;
use crate::parts::{find, Part};

/// Bytes of an image.
pub const IMAGE_BYTES: usize = 128;

/// Where each field begins. Numbers are little-endian.
pub mod place {
    pub const PART: usize = 0;
    pub const N: usize = 1;
    pub const STATUS: usize = 4;
    pub const AREA_PROTECTION: usize = 5;
    /// Configurations 1 to 4.
    pub const CONFIGURATIONS: usize = 6;
    pub const MR0: usize = 10;
    pub const MODE: usize = 11;
    pub const LATCH: usize = 12;
    pub const ARMED: usize = 13;
    pub const ASLEEP: usize = 14;
    pub const TOGGLE: usize = 15;
    pub const IDENTITY: usize = 16;
    pub const UNIQUE: usize = 24;
    pub const SERIAL: usize = 32;
    pub const OPEN: usize = 64;
    pub const OPCODE: usize = 65;
    pub const CLOCKS: usize = 68;
    pub const ADDRESS: usize = 72;
    pub const NUMBER: usize = 76;
    pub const VALUE: usize = 80;
}

/// The places of the flags.
pub const FLAGS: [usize; 5] = [
    place::LATCH,
    place::ARMED,
    place::ASLEEP,
    place::TOGGLE,
    place::OPEN,
];

/// The places of the bytes that no field has.
pub fn spare_places() -> Vec<usize> {
    (2..4).chain(40..64).chain(66..68).chain(88..128).collect()
}

/// The image of a record, valid or not.
pub fn image_of(record: &Record) -> Vec<u8> {
    let mut image = vec![0; IMAGE_BYTES];
    let mut put = |place: usize, bytes: &[u8]| {
        image[place..place + bytes.len()].copy_from_slice(bytes);
    };
    put(place::PART, &[record.part, record.n]);
    put(place::STATUS, &[record.status, record.area_protection]);
    put(place::CONFIGURATIONS, &record.configurations);
    put(place::MR0, &[record.mr0, record.mode]);
    let flags = [record.latch, record.armed, record.asleep, record.toggle];
    put(place::LATCH, &flags.map(u8::from));
    put(place::IDENTITY, &record.identity);
    put(place::UNIQUE, &record.unique);
    put(place::SERIAL, &record.serial);
    let open = &record.open;
    put(place::OPEN, &[u8::from(open.flag), open.opcode]);
    put(place::CLOCKS, &open.clocks.to_le_bytes());
    put(place::ADDRESS, &open.address.to_le_bytes());
    put(place::NUMBER, &open.number.to_le_bytes());
    put(place::VALUE, &open.value);
    image
}

/// The record that an image of the right length spells. A flag is up if its byte is
/// 1; nothing is checked.
pub fn spelled(image: &[u8]) -> Option<Record> {
    if image.len() != IMAGE_BYTES {
        return None;
    }
    let flag = |place: usize| image[place] == 1;
    let four = |place: usize| -> [u8; 4] { std::array::from_fn(|at| image[place + at]) };
    let eight = |place: usize| -> [u8; 8] { std::array::from_fn(|at| image[place + at]) };
    let number = |place: usize| u32::from_le_bytes(four(place));
    Some(Record {
        part: image[place::PART],
        n: image[place::N],
        mode: image[place::MODE],
        latch: flag(place::LATCH),
        armed: flag(place::ARMED),
        asleep: flag(place::ASLEEP),
        toggle: flag(place::TOGGLE),
        status: image[place::STATUS],
        area_protection: image[place::AREA_PROTECTION],
        configurations: four(place::CONFIGURATIONS),
        mr0: image[place::MR0],
        identity: eight(place::IDENTITY),
        unique: eight(place::UNIQUE),
        serial: eight(place::SERIAL),
        open: Open {
            flag: flag(place::OPEN),
            clocks: number(place::CLOCKS),
            opcode: image[place::OPCODE],
            address: number(place::ADDRESS),
            number: number(place::NUMBER),
            value: eight(place::VALUE),
        },
    })
}

/// The valid record whose image this is, if there is one: the record that it spells
/// has a part, an n that the part offers and a state that fits, and its image has
/// these bytes and no others.
pub fn valid(image: &[u8]) -> Option<Record> {
    let record = spelled(image)?;
    let part = find(record.part)?;
    let fits = part.allows_n(record.n) && state_fits(part, &record);
    (fits && image_of(&record) == image).then_some(record)
}

/// Makes a call over the record of an image. An image that no valid record has is
/// refused before anything else is looked at.
fn over(image: &mut [u8], call: impl FnOnce(&mut Record) -> (Answer, Counts)) -> (Answer, Counts) {
    let Some(mut record) = valid(image) else {
        return (Answer::State, Counts::default());
    };
    let told = call(&mut record);
    image.copy_from_slice(&image_of(&record));
    told
}

/// One whole transaction.
pub fn transact(
    image: &mut [u8],
    memory: &mut [u8],
    area: &mut [u8],
    samples: &[u8],
    output: &mut [u8],
) -> (Answer, Counts) {
    over(image, |record| {
        device::transact(record, memory, area, samples, output)
    })
}

pub fn power_cycle(image: &mut [u8], memory: &mut [u8], area: &mut [u8]) -> (Answer, Counts) {
    over(image, |record| device::power_cycle(record, memory, area))
}

/// Opens a transaction. All that is known of it from now on is in the image.
pub fn open(image: &mut [u8], memory: &[u8], area: &[u8]) -> (Answer, Counts) {
    over(image, |record| {
        chunks::open(record, memory, area, &mut None)
    })
}

pub fn feed(
    image: &mut [u8],
    memory: &mut [u8],
    area: &mut [u8],
    samples: &[u8],
    output: &mut [u8],
) -> (Answer, Counts) {
    over(image, |record| {
        chunks::feed(record, memory, area, &mut None, samples, output)
    })
}

pub fn close(image: &mut [u8], memory: &mut [u8], area: &mut [u8]) -> (Answer, Counts) {
    over(image, |record| {
        chunks::close(record, memory, area, &mut None)
    })
}

/// A fresh chip into an image, whatever that holds. A part without a unique number
/// does not look at one.
pub fn fresh(part: &Part, image: &mut [u8], n: u8, identity: &[u8], unique: &[u8]) -> Answer {
    if image.len() != IMAGE_BYTES {
        return Answer::State;
    }
    let unique_fits = part.unique_bytes == 0 || unique.len() == part.unique_bytes;
    if !part.allows_n(n) || identity.len() != part.identity_bytes || !unique_fits {
        return Answer::Size;
    }
    let eight =
        |bytes: &[u8]| -> [u8; 8] { std::array::from_fn(|at| bytes.get(at).copied().unwrap_or(0)) };
    let unique = &unique[..part.unique_bytes];
    let record = device::fresh(part, n, eight(identity), eight(unique));
    image.copy_from_slice(&image_of(&record));
    Answer::Done
}
