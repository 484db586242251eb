//! The program `campaign`: a text is run on a bench, and what happens is printed.

use crate::bench::{Bench, Closed, Verdict};
use crate::carriage::Carriage;
use crate::fault::Fault;
use crate::text::{read_act, read_header, Act, Header, Lines, Refusal};
use crate::value::{Block, Value};
use std::fmt::Write;

/// The program looks at no more bytes of its input.
pub const MOST_BYTES: usize = 32_768;

#[derive(Clone, Debug, PartialEq, Eq)]
pub enum Event {
    Refused(Refusal),
    Shot(Closed),
}

/// All that happened in a campaign whose header was read.
#[derive(Clone, Debug, PartialEq, Eq)]
pub struct Record {
    pub events: Vec<Event>,
    pub out: Vec<Block>,
    pub taken: usize,
    pub refused: usize,
}

/// What the program prints for this input.
pub fn campaign(text: &[u8]) -> String {
    match run(text) {
        Ok(record) => print(&record),
        Err(refusal) => format!("{}end=0,0\n", print_refusal(refusal)),
    }
}

/// Runs a campaign; an error is a refused header.
pub fn run(text: &[u8]) -> Result<Record, Refusal> {
    let mut lines = Lines::new(&text[..text.len().min(MOST_BYTES)]);
    let header = read_header(&mut lines)?;
    let mut bench = open(&header).map_err(|fault| Refusal { line: lines.number(), fault })?;
    let mut record = Record { events: Vec::new(), out: Vec::new(), taken: 0, refused: 0 };
    while let Some(line) = lines.next_line() {
        let act = line.and_then(|line| read_act(line, header.kind));
        match act.and_then(|act| perform(&mut bench, &header.list, act)) {
            Ok(closed) => {
                record.taken += 1;
                record.events.extend(closed.map(Event::Shot));
            }
            Err(fault) => {
                record.refused += 1;
                record.events.push(Event::Refused(Refusal { line: lines.number(), fault }));
            }
        }
    }
    record.out = bench.out_of_pool(header.group.lowest_correct());
    Ok(record)
}

fn open(header: &Header) -> Result<Bench, Fault> {
    let carriage = Carriage::new(header.style, header.group.clone(), header.list.len())?;
    Bench::open(carriage, &header.list)
}

fn perform(bench: &mut Bench, list: &[Value], act: Act) -> Result<Option<Closed>, Fault> {
    match act {
        Act::Begin { sender, value } => bench.begin(list, sender, value.as_ref())?,
        Act::Inject(frame) => bench.inject(frame)?,
        Act::Turn(phase) => bench.turn(phase)?,
        Act::Close(shot) => return bench.close(list, shot).map(Some),
    }
    Ok(None)
}

fn print(record: &Record) -> String {
    let mut report = String::new();
    for event in &record.events {
        report += &match event {
            Event::Refused(refusal) => print_refusal(*refusal),
            Event::Shot(closed) => print_shot(closed),
        };
    }
    let blocks: Vec<String> = record.out.iter().map(Block::to_string).collect();
    let out = if blocks.is_empty() { "-".to_string() } else { blocks.join(",") };
    let ending = write!(report, "out={out}\nend={},{}\n", record.taken, record.refused);
    debug_assert!(ending.is_ok());
    report
}

fn print_refusal(refusal: Refusal) -> String {
    let Refusal { line, fault } = refusal;
    format!("refused={line},{},{}\n", fault.layer(), fault.number())
}

/// With the verdict of the lowest correct controller.
fn print_shot(closed: &Closed) -> String {
    let verdict = match closed.verdicts.values().next() {
        Some(Verdict::At(place)) => place.to_string(),
        _ => "sf".to_string(),
    };
    format!("shot={},{},{verdict}\n", closed.shot, closed.sender)
}
