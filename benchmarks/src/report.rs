//! A campaign text run on a bench, and what is printed of it.

use crate::bench::{Bench, Closed, Fault};
use crate::carriage::{Carriage, Echo, Seal};
use crate::text::{act, header, Act, Header, Lines, Value};
use std::io::{self, Write};

fn refused(out: &mut Vec<u8>, line: usize, (layer, number): Fault) -> io::Result<()> {
    writeln!(out, "refused={line},{layer},{number}")
}

fn perform<C: Carriage>(bench: &mut Bench<C>, list: &[Value], act: Act) -> Result<Option<Closed>, Fault> {
    match act {
        Act::Begin(sender, value) => bench.begin(list, sender, value.as_ref())?,
        Act::Inject(frame) => bench.inject(frame)?,
        Act::Turn(phase) => bench.turn(phase)?,
        Act::Close(shot) => return bench.close(list, shot).map(Some),
    }
    Ok(None)
}

fn run<C: Carriage>(carriage: C, header: &Header, lines: &mut Lines, out: &mut Vec<u8>) -> io::Result<()> {
    let mut bench = Bench::open(carriage);
    let list = &header.values[..header.count];
    let (mut taken, mut denied) = (0, 0);
    while !lines.at_end() {
        let act = lines.next().and_then(|line| act(line, header.pulse));
        match act.and_then(|act| perform(&mut bench, list, act)) {
            Ok(closed) => {
                taken += 1;
                match closed {
                    Some(Closed { shot, sender, place: Some(place) }) => writeln!(out, "shot={shot},{sender},{place}")?,
                    Some(Closed { shot, sender, place: None }) => writeln!(out, "shot={shot},{sender},sf")?,
                    None => {}
                }
            }
            Err(fault) => {
                denied += 1;
                refused(out, lines.number, fault)?;
            }
        }
    }
    out.extend_from_slice(b"out=");
    let mut any = false;
    for block in bench.out_of_pool() {
        if any {
            out.push(b',');
        }
        write!(out, "{block}")?;
        any = true;
    }
    if !any {
        out.push(b'-');
    }
    writeln!(out, "\nend={taken},{denied}")
}

/// What the program prints for this input.
pub fn report(text: &[u8]) -> io::Result<Vec<u8>> {
    let mut out = Vec::new();
    let mut lines = Lines::new(text);
    match header(&mut lines) {
        Err(fault) => {
            refused(&mut out, lines.number, fault)?;
            out.extend_from_slice(b"end=0,0\n");
        }
        Ok(header) => {
            let places = header.count as u16;
            if header.echo {
                run(Echo::new(header.group, places), &header, &mut lines, &mut out)?;
            } else {
                run(Seal::new(header.group, places), &header, &mut lines, &mut out)?;
            }
        }
    }
    Ok(out)
}
