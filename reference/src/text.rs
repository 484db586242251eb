//! Reading the campaign text.

use crate::bench::Shot;
use crate::carriage::{Frame, Letter, Phase, Style, Triple};
use crate::fault::Fault;
use crate::group::{Controller, Group, LAST_MARK};
use crate::value::{check_list, Kind, Outcome, Value, MOST_VALUES};
use std::collections::BTreeSet;

pub const MOST_BYTES_OF_LINE: usize = 64;
const LINE_FEED: u8 = 10;

pub type LineNumber = usize;

/// A fault with the line that it names.
#[derive(Clone, Copy, Debug, PartialEq, Eq)]
pub struct Refusal {
    pub line: LineNumber,
    pub fault: Fault,
}

/// The lines of a text, one after the other.
pub struct Lines<'a> {
    rest: &'a [u8],
    number: LineNumber,
}

impl<'a> Lines<'a> {
    pub fn new(text: &'a [u8]) -> Lines<'a> {
        Lines { rest: text, number: 0 }
    }

    /// The number of the line that was read last.
    pub fn number(&self) -> LineNumber {
        self.number
    }

    /// The bytes of the next line before its line feed; nothing at the end of the text.
    pub fn next_line(&mut self) -> Option<Result<&'a [u8], Fault>> {
        if self.rest.is_empty() {
            return None;
        }
        self.number += 1;
        let Some(end) = self.rest.iter().position(|&byte| byte == LINE_FEED) else {
            self.rest = &[];
            return Some(Err(Fault::Line));
        };
        let line = &self.rest[..end];
        self.rest = &self.rest[end + 1..];
        if line.len() > MOST_BYTES_OF_LINE {
            return Some(Err(Fault::Line));
        }
        Some(Ok(line))
    }

    /// Reads the next line, which has to be there, and what `read` makes of it.
    fn expect<T>(&mut self, read: impl Fn(&'a [u8]) -> Result<T, Fault>) -> Result<T, Refusal> {
        let Some(line) = self.next_line() else {
            return Err(Refusal { line: self.number + 1, fault: Fault::Line });
        };
        line.and_then(read).map_err(|fault| self.refusal(fault))
    }

    /// A fault of the line that was read last.
    fn refusal(&self, fault: Fault) -> Refusal {
        Refusal { line: self.number, fault }
    }
}

#[derive(Clone, Debug)]
pub struct Header {
    pub group: Group,
    pub style: Style,
    pub kind: Kind,
    pub list: Vec<Value>,
}

pub fn read_header(lines: &mut Lines) -> Result<Header, Refusal> {
    lines.expect(|line| word(after_key(line, b"bench")?, &[(b"1", ())]))?;
    let n = lines.expect(|line| number(after_key(line, b"n")?))?;
    let t = lines.expect(|line| number(after_key(line, b"t")?))?;
    let marks = lines.expect(|line| read_marks(after_key(line, b"marks")?))?;
    let group = Group::new(n, t, marks).map_err(|fault| lines.refusal(fault))?;
    let styles: [(&[u8], Style); 2] = [(b"echo", Style::Echo), (b"seal", Style::Seal)];
    let style = lines.expect(|line| word(after_key(line, b"carriage")?, &styles))?;
    let kinds: [(&[u8], Kind); 2] = [(b"notice", Kind::Notice), (b"pulse", Kind::Pulse)];
    let kind = lines.expect(|line| word(after_key(line, b"kind")?, &kinds))?;
    let count = lines.expect(|line| read_count(after_key(line, b"values")?))?;
    let mut list = Vec::new();
    for _ in 0..count {
        list.push(lines.expect(|line| read_value(after_key(line, b"v")?, kind))?);
    }
    check_list(&list).map_err(|fault| lines.refusal(fault))?;
    Ok(Header { group, style, kind, list })
}

#[derive(Clone, Debug)]
pub enum Act {
    Begin { sender: Controller, value: Option<Value> },
    Inject(Frame),
    Turn(Phase),
    Close(Shot),
}

pub fn read_act(line: &[u8], kind: Kind) -> Result<Act, Fault> {
    let (key, value) = split_at(line, b'=')?;
    match key {
        b"begin" => read_begin(value, kind),
        b"inject" => read_inject(value),
        b"turn" => Ok(Act::Turn(number(value)?)),
        b"close" => Ok(Act::Close(number(value)?)),
        _ => Err(Fault::Form),
    }
}

fn read_begin(bytes: &[u8], kind: Kind) -> Result<Act, Fault> {
    let (sender, value) = split_at(bytes, b',')?;
    let sender = number(sender)?;
    let value = match value {
        b"-" => None,
        value => Some(read_value(value, kind)?),
    };
    Ok(Act::Begin { sender, value })
}

fn read_inject(bytes: &[u8]) -> Result<Act, Fault> {
    let [from, to, letter, origin, round, place] = fields(bytes)?;
    let letters: [(&[u8], Letter); 3] = [(b"i", Letter::Init), (b"e", Letter::Echo), (b"s", Letter::Seal)];
    Ok(Act::Inject(Frame {
        from: number(from)?,
        to: number(to)?,
        letter: word(letter, &letters)?,
        triple: Triple { origin: number(origin)?, round: number(round)?, place: number(place)? },
    }))
}

fn read_marks(bytes: &[u8]) -> Result<BTreeSet<Controller>, Fault> {
    if bytes == b"-" {
        return Ok(BTreeSet::new());
    }
    let marks = bytes.split(|&byte| byte == b',').map(number).collect::<Result<Vec<_>, _>>()?;
    if !marks.windows(2).all(|pair| pair[0] < pair[1]) {
        return Err(Fault::Form);
    }
    if marks.iter().any(|&mark| mark > LAST_MARK) {
        return Err(Fault::Mark);
    }
    Ok(marks.into_iter().collect())
}

fn read_count(bytes: &[u8]) -> Result<usize, Fault> {
    let count = usize::from(number(bytes)?);
    if !(1..=MOST_VALUES).contains(&count) {
        return Err(Fault::Count);
    }
    Ok(count)
}

fn read_value(bytes: &[u8], kind: Kind) -> Result<Value, Fault> {
    match kind {
        Kind::Notice => {
            let [letter, block, tick] = fields(bytes)?;
            let outcome = word(letter, &[(b"F", Outcome::Failed), (b"P", Outcome::Passed)])?;
            let (block, tick) = (number(block)?, number(tick)?);
            Value::notice(outcome, block, tick)
        }
        Kind::Pulse => {
            let [block, pulses] = fields(bytes)?;
            let (block, pulses) = (number(block)?, number(pulses)?);
            Value::pulse(block, pulses)
        }
    }
}

/// What follows `key=`.
fn after_key<'a>(line: &'a [u8], key: &[u8]) -> Result<&'a [u8], Fault> {
    let (found, value) = split_at(line, b'=')?;
    if found != key {
        return Err(Fault::Form);
    }
    Ok(value)
}

/// What stands before and after the first such byte.
fn split_at(bytes: &[u8], mark: u8) -> Result<(&[u8], &[u8]), Fault> {
    let at = bytes.iter().position(|&byte| byte == mark).ok_or(Fault::Form)?;
    Ok((&bytes[..at], &bytes[at + 1..]))
}

/// Exactly so many fields, separated by commas.
fn fields<const COUNT: usize>(bytes: &[u8]) -> Result<[&[u8]; COUNT], Fault> {
    let found: Vec<&[u8]> = bytes.split(|&byte| byte == b',').collect();
    found.try_into().map_err(|_| Fault::Form)
}

/// One of these words.
fn word<T: Copy>(bytes: &[u8], words: &[(&[u8], T)]) -> Result<T, Fault> {
    let found = words.iter().find(|(word, _)| *word == bytes);
    found.map(|&(_, meaning)| meaning).ok_or(Fault::Form)
}

/// A decimal number, 0 to 65535, without sign and without leading zero.
pub fn number(bytes: &[u8]) -> Result<u16, Fault> {
    let digits = !bytes.is_empty() && bytes.iter().all(u8::is_ascii_digit);
    let leading_zero = bytes.len() > 1 && bytes[0] == b'0';
    if !digits || leading_zero {
        return Err(Fault::Form);
    }
    let digits = std::str::from_utf8(bytes).map_err(|_| Fault::Form)?;
    digits.parse().map_err(|_| Fault::Form)
}
