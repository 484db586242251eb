//! Values of both kinds, and value lists.

use crate::fault::Fault;
use std::fmt;

pub type Block = u16;
/// The index of a value in the value list.
pub type Place = u16;

pub const LAST_BLOCK: Block = 63;
pub const MOST_PULSES: u16 = 8;
pub const MOST_VALUES: usize = 4;

#[derive(Clone, Copy, Debug, PartialEq, Eq)]
pub enum Kind {
    Notice,
    Pulse,
}

#[derive(Clone, Copy, Debug, PartialEq, Eq)]
pub enum Outcome {
    Failed,
    Passed,
}

/// What a controller says of a block. There is no `==` here: only `same` says which values are the same.
#[derive(Clone, Copy, Debug)]
pub enum Value {
    Notice { outcome: Outcome, block: Block, tick: u16 },
    Pulse { block: Block, pulses: u16 },
}

impl Value {
    pub fn notice(outcome: Outcome, block: Block, tick: u16) -> Result<Value, Fault> {
        check_block(block)?;
        Ok(Value::Notice { outcome, block, tick })
    }

    /// The block is looked at first.
    pub fn pulse(block: Block, pulses: u16) -> Result<Value, Fault> {
        check_block(block)?;
        if !(1..=MOST_PULSES).contains(&pulses) {
            return Err(Fault::Pulses);
        }
        Ok(Value::Pulse { block, pulses })
    }

    /// Notices: letter and block agree, the tick does not count. Pulse reports: both numbers agree.
    pub fn same(&self, other: &Value) -> bool {
        match (*self, *other) {
            (Value::Notice { outcome: a, block: b, .. }, Value::Notice { outcome: c, block: d, .. }) => {
                a == c && b == d
            }
            (Value::Pulse { block: a, pulses: b }, Value::Pulse { block: c, pulses: d }) => a == c && b == d,
            _ => false,
        }
    }

    /// The block that this value charges, if any.
    pub fn charges(&self) -> Option<Block> {
        match *self {
            Value::Notice { outcome: Outcome::Failed, block, .. } => Some(block),
            Value::Pulse { block, pulses: MOST_PULSES } => Some(block),
            _ => None,
        }
    }
}

/// Values are written as in the campaign text.
impl fmt::Display for Value {
    fn fmt(&self, f: &mut fmt::Formatter<'_>) -> fmt::Result {
        match self {
            Value::Notice { outcome: Outcome::Failed, block, tick } => write!(f, "F,{block},{tick}"),
            Value::Notice { outcome: Outcome::Passed, block, tick } => write!(f, "P,{block},{tick}"),
            Value::Pulse { block, pulses } => write!(f, "{block},{pulses}"),
        }
    }
}

pub fn check_block(block: Block) -> Result<(), Fault> {
    if block > LAST_BLOCK {
        return Err(Fault::Block);
    }
    Ok(())
}

pub fn check_length(length: usize) -> Result<(), Fault> {
    if !(1..=MOST_VALUES).contains(&length) {
        return Err(Fault::Length);
    }
    Ok(())
}

/// The length is looked at first.
pub fn check_list(list: &[Value]) -> Result<(), Fault> {
    check_length(list.len())?;
    for (index, value) in list.iter().enumerate() {
        if list[..index].iter().any(|earlier| earlier.same(value)) {
            return Err(Fault::Repeated);
        }
    }
    Ok(())
}

/// The first place that holds a value the same as this one.
pub fn place_of(list: &[Value], value: &Value) -> Option<Place> {
    let index = list.iter().position(|listed| listed.same(value))?;
    Some(index as Place)
}
