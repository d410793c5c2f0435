//! The answers of documents 01 and 02 by name, what each class of them leaves, and
//! the clock counts that an answer carries.

use std::fmt;

/// An answer, with the papers' number.
#[derive(Clone, Copy, PartialEq, Eq, PartialOrd, Ord, Debug)]
pub enum Answer {
    Done = 0,
    Size = 1,
    Sample = 2,
    State = 3,
    Short = 4,
    Unknown = 5,
    Asleep = 6,
    Address = 7,
    Latch = 8,
    Protected = 9,
    Reserved = 10,
    Long = 11,
    Unarmed = 12,
    /// Out of turn: a call that does not fit a transaction being open, or none.
    Turn = 13,
}

/// What a transaction leaves, by its answer.
#[derive(Clone, Copy, PartialEq, Eq, Debug)]
pub enum Class {
    /// The command is carried out.
    Done,
    /// Nothing is changed anywhere, and all counts are 0.
    Refused,
    /// The clocks are counted and their output is undriven; the chip is disarmed.
    Declined,
}

impl Answer {
    pub fn number(self) -> u8 {
        self as u8
    }

    pub fn class(self) -> Class {
        match self {
            Answer::Done => Class::Done,
            Answer::Size | Answer::Sample | Answer::State | Answer::Turn => Class::Refused,
            Answer::Short
            | Answer::Unknown
            | Answer::Asleep
            | Answer::Address
            | Answer::Latch
            | Answer::Protected
            | Answer::Reserved
            | Answer::Long
            | Answer::Unarmed => Class::Declined,
        }
    }
}

impl fmt::Display for Answer {
    fn fmt(&self, f: &mut fmt::Formatter<'_>) -> fmt::Result {
        write!(f, "{}", self.number())
    }
}

/// Clocks by phase.
#[derive(Clone, Copy, PartialEq, Eq, Debug, Default)]
pub struct Counts {
    pub command: u32,
    pub address: u32,
    pub wait: u32,
    pub data: u32,
    pub rest: u32,
}

impl Counts {
    /// What the bench writes over the counts.
    pub const TITLE: &'static str = "command address wait data rest";

    /// The clocks of all phases.
    pub fn clocks(&self) -> u32 {
        self.command + self.address + self.wait + self.data + self.rest
    }
}

/// The counts in the paper's order.
impl fmt::Display for Counts {
    fn fmt(&self, f: &mut fmt::Formatter<'_>) -> fmt::Result {
        let Counts {
            command,
            address,
            wait,
            data,
            rest,
        } = self;
        write!(f, "{command} {address} {wait} {data} {rest}")
    }
}
