//! The parts: one row of limits for each. A rule that holds for every part of a
//! family asks the family, a limit is read from the part's row.

/// Which rules a part follows.
#[derive(Clone, Copy, PartialEq, Eq, Debug)]
pub enum Family {
    /// The serial MRAMs of documents 000 and 002.
    Mram,
    /// The serial PSRAM of document 004.
    Psram,
}

/// A register that opcode 65 can name.
#[derive(Clone, Copy, PartialEq, Eq, Debug)]
pub enum Register {
    Status,
    /// Configurations 1 to 4 are 0 to 3 here, as in a record.
    Configuration(usize),
    Identity,
    Unique,
    Serial,
}

/// The limits of one part.
#[derive(PartialEq, Eq, Debug)]
pub struct Part {
    pub number: u8,
    /// How the part is called in printed lines.
    pub word: &'static str,
    pub family: Family,
    /// Memory holds 2^n bytes, n from the least to the most.
    pub least_n: u8,
    pub most_n: u8,
    /// Size of the augmented area in bytes, 0 where there is none.
    pub area_bytes: usize,
    /// Size of one separately protected section of the area in bytes.
    pub section_bytes: usize,
    /// Length in bytes of the group that each wrap code stands for; there are no
    /// other codes.
    pub wrap_lengths: &'static [usize],
    /// Bytes of the identity; the rest of the record's eight are 0.
    pub identity_bytes: usize,
    /// Bytes of the unique number, 0 where there is none.
    pub unique_bytes: usize,
    /// Address, register and size in bytes of all that opcode 65 finds. Only the
    /// first address of a long register is here.
    pub register_map: &'static [(u32, Register, usize)],
    pub fresh_configurations: [u8; 4],
    pub fresh_mr0: u8,
}

/// The serial MRAM of document 000.
pub const M: Part = Part {
    number: 1,
    word: "M",
    family: Family::Mram,
    least_n: 10,
    most_n: 21,
    area_bytes: 256,
    section_bytes: 32,
    wrap_lengths: &[16, 32, 64, 128, 256],
    identity_bytes: 4,
    unique_bytes: 8,
    register_map: &[
        (0x00, Register::Status, 1),
        (0x02, Register::Configuration(0), 1),
        (0x03, Register::Configuration(1), 1),
        (0x04, Register::Configuration(2), 1),
        (0x05, Register::Configuration(3), 1),
        (0x30, Register::Identity, 4),
        (0x40, Register::Unique, 8),
    ],
    fresh_configurations: [0, 0x08, 0, 0x05],
    fresh_mr0: 0,
};

/// The serial PSRAM.
pub const P: Part = Part {
    number: 2,
    word: "P",
    family: Family::Psram,
    least_n: 10,
    most_n: 21,
    area_bytes: 0,
    section_bytes: 0,
    wrap_lengths: &[16, 32, 64, 512],
    identity_bytes: 8,
    unique_bytes: 0,
    register_map: &[],
    fresh_configurations: [0; 4],
    fresh_mr0: 0x60,
};

/// The serial MRAM of 32 Mbit, document 002. What document 02, P4 does not name is
/// as for part 1.
pub const M32: Part = Part {
    number: 3,
    word: "M32",
    most_n: 22,
    area_bytes: 512,
    section_bytes: 64,
    wrap_lengths: &[16, 32, 64, 128, 256, 512, 1024],
    register_map: &[
        (0x00, Register::Status, 1),
        (0x02, Register::Configuration(0), 1),
        (0x03, Register::Configuration(1), 1),
        (0x04, Register::Configuration(2), 1),
        (0x05, Register::Configuration(3), 1),
        (0x30, Register::Identity, 4),
        (0x40, Register::Unique, 8),
        (0x80, Register::Serial, 8),
    ],
    ..M
};

/// All parts, in the order of their numbers, which begin at 1.
pub const PARTS: [&Part; 3] = [&M, &P, &M32];

/// The first number that no part has.
pub const FIRST_FREE_NUMBER: u8 = PARTS.len() as u8 + 1;

/// The part with this number.
pub fn find(number: u8) -> Option<&'static Part> {
    PARTS.into_iter().find(|part| part.number == number)
}

/// All parts but the one with this number.
pub fn others(number: u8) -> Vec<&'static Part> {
    let other = |part: &&Part| part.number != number;
    PARTS.into_iter().filter(other).collect()
}

/// The parts of other families than that of the part with this number; all parts
/// where there is no such part.
pub fn strangers(number: u8) -> Vec<&'static Part> {
    let family = find(number).map(|part| part.family);
    let stranger = |part: &&Part| Some(part.family) != family;
    PARTS.into_iter().filter(stranger).collect()
}

/// All parts of a family.
pub fn of_family(family: Family) -> Vec<&'static Part> {
    let member = |part: &&Part| part.family == family;
    PARTS.into_iter().filter(member).collect()
}

impl Part {
    pub fn allows_n(&self, n: u8) -> bool {
        (self.least_n..=self.most_n).contains(&n)
    }

    /// The register that opcode 65 finds at this address, and its size in bytes.
    pub fn register_at(&self, address: u32) -> Option<(Register, usize)> {
        self.register_map
            .iter()
            .find(|entry| entry.0 == address)
            .map(|&(_, register, bytes)| (register, bytes))
    }
}
