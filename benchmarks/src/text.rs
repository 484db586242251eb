//! The campaign text, line by line over the lent bytes.

use crate::bench::Fault;
use crate::carriage::{Frame, Group, Triple};

#[derive(Clone, Copy)]
pub enum Value {
    Notice { failed: bool, block: u8 },
    Pulses { block: u8, pulses: u8 },
}

impl Value {
    pub fn is_same(&self, other: &Value) -> bool {
        match (self, other) {
            (Value::Notice { failed: a, block: b }, Value::Notice { failed: c, block: d }) => a == c && b == d,
            (Value::Pulses { block: a, pulses: b }, Value::Pulses { block: c, pulses: d }) => a == c && b == d,
            _ => false,
        }
    }

    pub fn charge(&self) -> Option<u8> {
        match *self {
            Value::Notice { failed: true, block } | Value::Pulses { block, pulses: 8 } => Some(block),
            _ => None,
        }
    }
}

const MISSING: Fault = ("text", 1);
const FORM: Fault = ("text", 2);
const RANGE: Fault = ("value", 3);

pub struct Header {
    pub group: Group,
    pub echo: bool,
    pub pulse: bool,
    pub values: [Value; 4],
    pub count: usize,
}

pub enum Act {
    Begin(u16, Option<Value>),
    Inject(Frame),
    Turn(u16),
    Close(u16),
}

pub struct Lines<'a> {
    rest: &'a [u8],
    pub number: usize,
}

impl<'a> Lines<'a> {
    pub fn new(text: &'a [u8]) -> Lines<'a> {
        Lines { rest: text, number: 0 }
    }

    pub fn at_end(&self) -> bool {
        self.rest.is_empty()
    }

    pub fn next(&mut self) -> Result<&'a [u8], Fault> {
        self.number += 1;
        match self.rest.iter().position(|&byte| byte == b'\n') {
            Some(end) => {
                let line = &self.rest[..end];
                self.rest = &self.rest[end + 1..];
                if end > 64 { Err(MISSING) } else { Ok(line) }
            }
            None => {
                self.rest = &[];
                Err(MISSING)
            }
        }
    }
}

fn number(field: &[u8]) -> Option<u16> {
    if field.is_empty() || field.len() > 5 || (field[0] == b'0' && field.len() > 1) {
        return None;
    }
    let mut n = 0u32;
    for &byte in field {
        if !byte.is_ascii_digit() {
            return None;
        }
        n = 10 * n + u32::from(byte - b'0');
    }
    u16::try_from(n).ok()
}

/// What stands before the first comma, and what stands after it.
fn cut(text: &[u8]) -> Option<(&[u8], &[u8])> {
    let at = text.iter().position(|&byte| byte == b',')?;
    Some((&text[..at], &text[at + 1..]))
}

fn keyed<'a>(line: &'a [u8], key: &[u8]) -> Option<&'a [u8]> {
    line.strip_prefix(key)?.strip_prefix(b"=")
}

fn number_field(text: &[u8]) -> Option<(u16, &[u8])> {
    let (field, rest) = cut(text)?;
    Some((number(field)?, rest))
}

fn notice(text: &[u8]) -> Option<Result<Value, Fault>> {
    let (letter, rest) = cut(text)?;
    let failed = match letter {
        b"F" => true,
        b"P" => false,
        _ => return None,
    };
    let (block, tick) = number_field(rest)?;
    number(tick)?;
    Some(if block > 63 { Err(RANGE) } else { Ok(Value::Notice { failed, block: block as u8 }) })
}

fn pulses(text: &[u8]) -> Option<Result<Value, Fault>> {
    let (block, pulses) = number_field(text)?;
    let pulses = number(pulses)?;
    let fits = block <= 63 && (1..=8).contains(&pulses);
    Some(if fits { Ok(Value::Pulses { block: block as u8, pulses: pulses as u8 }) } else { Err(RANGE) })
}

fn value(text: &[u8], pulse: bool) -> Result<Value, Fault> {
    (if pulse { pulses(text) } else { notice(text) }).ok_or(FORM)?
}

fn marks(mut text: &[u8]) -> Result<u16, Fault> {
    if text == b"-" {
        return Ok(0);
    }
    let (mut set, mut least, mut high) = (0u16, 0u32, false);
    loop {
        let (field, rest) = cut(text).map_or((text, None), |(field, rest)| (field, Some(rest)));
        let mark = number(field).ok_or(FORM)?;
        if u32::from(mark) < least {
            return Err(FORM);
        }
        least = u32::from(mark) + 1;
        if mark > 15 {
            high = true;
        } else {
            set |= 1 << mark;
        }
        match rest {
            Some(rest) => text = rest,
            None => return if high { Err(RANGE) } else { Ok(set) },
        }
    }
}

fn group(n: u16, t: u16, marks: u16) -> Result<Group, Fault> {
    if !(1..=16).contains(&n) {
        return Err(("group", 4));
    }
    if 3 * u32::from(t) >= u32::from(n) {
        return Err(("group", 5));
    }
    if u32::from(marks) >> n != 0 || marks.count_ones() > u32::from(t) {
        return Err(("group", 6));
    }
    Ok(Group { n, t, marks })
}

fn keyed_number(line: &[u8], key: &[u8]) -> Result<u16, Fault> {
    keyed(line, key).and_then(number).ok_or(FORM)
}

fn one_of(line: &[u8], first: &[u8], second: &[u8]) -> Result<bool, Fault> {
    if line == first {
        Ok(true)
    } else if line == second {
        Ok(false)
    } else {
        Err(FORM)
    }
}

pub fn header(lines: &mut Lines) -> Result<Header, Fault> {
    if lines.next()? != b"bench=1" {
        return Err(FORM);
    }
    let n = keyed_number(lines.next()?, b"n")?;
    let t = keyed_number(lines.next()?, b"t")?;
    let marks = marks(keyed(lines.next()?, b"marks").ok_or(FORM)?)?;
    let group = group(n, t, marks)?;
    let echo = one_of(lines.next()?, b"carriage=echo", b"carriage=seal")?;
    let pulse = one_of(lines.next()?, b"kind=pulse", b"kind=notice")?;
    let count = usize::from(keyed_number(lines.next()?, b"values")?);
    if !(1..=4).contains(&count) {
        return Err(RANGE);
    }
    let mut values = [Value::Notice { failed: false, block: 0 }; 4];
    for slot in &mut values[..count] {
        *slot = value(keyed(lines.next()?, b"v").ok_or(FORM)?, pulse)?;
    }
    for i in 0..count {
        if values[i + 1..count].iter().any(|later| later.is_same(&values[i])) {
            return Err(("list", 8));
        }
    }
    Ok(Header { group, echo, pulse, values, count })
}

fn injection(text: &[u8]) -> Option<Frame> {
    let (from, rest) = number_field(text)?;
    let (to, rest) = number_field(rest)?;
    let (letter, rest) = cut(rest)?;
    let &[letter @ (b'i' | b'e' | b's')] = letter else { return None };
    let (origin, rest) = number_field(rest)?;
    let (round, rest) = number_field(rest)?;
    let place = number(rest)?;
    Some(Frame { from, to, letter, triple: Triple { origin, place, round } })
}

pub fn act(line: &[u8], pulse: bool) -> Result<Act, Fault> {
    if let Some(rest) = keyed(line, b"turn") {
        return number(rest).map(Act::Turn).ok_or(FORM);
    }
    if let Some(rest) = keyed(line, b"inject") {
        return injection(rest).map(Act::Inject).ok_or(FORM);
    }
    if let Some(rest) = keyed(line, b"close") {
        return number(rest).map(Act::Close).ok_or(FORM);
    }
    let (sender, rest) = keyed(line, b"begin").and_then(number_field).ok_or(FORM)?;
    let value = if rest == b"-" { None } else { Some(value(rest, pulse)?) };
    Ok(Act::Begin(sender, value))
}
