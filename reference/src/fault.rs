//! Faults, their numbers and their layers.

use std::fmt;

/// The part that refuses.
#[derive(Clone, Copy, Debug, PartialEq, Eq)]
pub enum Layer {
    Text,
    Value,
    Group,
    List,
    Bench,
    Carriage,
}

/// Why something is refused.
#[derive(Clone, Copy, Debug, PartialEq, Eq)]
pub enum Fault {
    /// A line is missing, too long, or has no line feed.
    Line,
    /// A wrong key, or a value not in its form.
    Form,
    /// A block above 63.
    Block,
    /// Pulses not 1 to 8.
    Pulses,
    /// A values count not 1 to 4.
    Count,
    /// A mark above 15.
    Mark,
    /// n is not 1 to 16.
    Size,
    /// n is not above 3t.
    Tolerance,
    /// A mark not below n, or more than t marks.
    Marks,
    /// A list length not 1 to 4, or not the carriage's.
    Length,
    /// Two values of the list are the same.
    Repeated,
    /// An act, phase or shot not of this moment.
    Moment,
    /// A sender not below n.
    Sender,
    /// A marked sender given a value.
    MarkedSender,
    /// A value not on the list.
    NotListed,
    /// 999 shots are closed.
    Shots,
    /// A frame not from a marked controller.
    From,
    /// The controller is not correct.
    NotCorrect,
    /// A letter not of this carriage.
    Letter,
    /// A triple out of range.
    Range,
    /// A seal never offered.
    Seal,
    /// An offer by a marked controller, or in a wrong phase.
    Offer,
    /// A turn after the last phase.
    Turn,
}

impl Fault {
    pub fn number(self) -> u8 {
        match self {
            Fault::Line => 1,
            Fault::Form => 2,
            Fault::Block | Fault::Pulses | Fault::Count | Fault::Mark => 3,
            Fault::Size => 4,
            Fault::Tolerance => 5,
            Fault::Marks => 6,
            Fault::Length => 7,
            Fault::Repeated => 8,
            Fault::Moment => 9,
            Fault::Sender => 10,
            Fault::MarkedSender => 11,
            Fault::NotListed => 12,
            Fault::Shots => 13,
            Fault::From => 14,
            Fault::NotCorrect => 15,
            Fault::Letter => 16,
            Fault::Range => 17,
            Fault::Seal => 18,
            Fault::Offer => 19,
            Fault::Turn => 20,
        }
    }

    pub fn layer(self) -> Layer {
        match self.number() {
            1 | 2 => Layer::Text,
            3 => Layer::Value,
            4..=6 => Layer::Group,
            7 | 8 => Layer::List,
            9..=13 => Layer::Bench,
            _ => Layer::Carriage,
        }
    }
}

impl fmt::Display for Layer {
    fn fmt(&self, f: &mut fmt::Formatter<'_>) -> fmt::Result {
        f.write_str(match self {
            Layer::Text => "text",
            Layer::Value => "value",
            Layer::Group => "group",
            Layer::List => "list",
            Layer::Bench => "bench",
            Layer::Carriage => "carriage",
        })
    }
}
