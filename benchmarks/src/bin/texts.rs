//! `texts DIR` writes the campaigns that are measured, each just under 32,768 bytes.

use std::fmt::Write as _;
use std::path::Path;
use std::process::ExitCode;
use std::{env, fs, io};

const ROOM: usize = 32_768;

/// A small generator of numbers, always the same.
struct Numbers(u64);

impl Numbers {
    fn below(&mut self, bound: u64) -> u64 {
        self.0 = self.0.wrapping_mul(6_364_136_223_846_793_005).wrapping_add(1_442_695_040_888_963_407);
        (self.0 >> 33) % bound
    }
}

fn header(n: u16, t: u16, marks: &str, carriage: &str, kind: &str, values: &[&str]) -> String {
    let mut text = format!("bench=1\nn={n}\nt={t}\nmarks={marks}\ncarriage={carriage}\nkind={kind}\nvalues={}\n", values.len());
    for value in values {
        text += &format!("v={value}\n");
    }
    text
}

/// Repeats shots as long as there is room for a whole one.
fn fill(mut text: String, mut shot: impl FnMut(u64) -> String) -> String {
    for number in 1.. {
        let next = shot(number);
        if text.len() + next.len() > ROOM {
            break;
        }
        text += &next;
    }
    text
}

/// The largest group, four values; every shot has many frames of the five marked controllers in every phase.
fn many_frames(carriage: &str) -> String {
    let letters: &[char] = if carriage == "echo" { &['i', 'e'] } else { &['s'] };
    let mut numbers = Numbers(7);
    let values = ["63,8", "63,7", "0,8", "0,1"];
    fill(header(16, 5, "11,12,13,14,15", carriage, "pulse", &values), |shot| {
        let sender = if shot % 2 == 0 { 11 } else { numbers.below(11) };
        let given = if sender < 11 { values[numbers.below(4) as usize] } else { "-" };
        let mut text = format!("begin={sender},{given}\n");
        for phase in 1..=12 {
            for _ in 0..12 {
                let (from, to) = (11 + numbers.below(5), numbers.below(11));
                let letter = letters[numbers.below(letters.len() as u64) as usize];
                let (origin, round, place) = (11 + numbers.below(5), 1 + numbers.below(6), numbers.below(4));
                let _ = writeln!(text, "inject={from},{to},{letter},{origin},{round},{place}");
            }
            let _ = writeln!(text, "turn={phase}");
        }
        let _ = writeln!(text, "close={shot}");
        text
    })
}

/// Shots of the largest group with no frames at all: the protocol's own work.
fn long_shots(carriage: &str) -> String {
    let values = ["F,1,0", "F,2,0", "P,1,0", "P,2,0"];
    fill(header(16, 5, "-", carriage, "notice", &values), |shot| {
        let mut text = format!("begin={},{}\n", shot % 16, values[(shot % 4) as usize]);
        for phase in 1..=12 {
            let _ = writeln!(text, "turn={phase}");
        }
        let _ = writeln!(text, "close={shot}");
        text
    })
}

/// Short shots of a small group.
fn short_shots() -> String {
    fill(header(4, 1, "3", "echo", "notice", &["F,5,0", "F,9,0"]), |shot| {
        format!("begin={},F,5,{shot}\nturn=1\nturn=2\nturn=3\nturn=4\nclose={shot}\n", shot % 3)
    })
}

/// Acts of which nearly every line is damaged.
fn damaged() -> String {
    let mut numbers = Numbers(11);
    fill(header(4, 1, "3", "seal", "notice", &["F,5,0", "F,9,0"]), |_| {
        let mut line = "inject=3,0,s,3,1,0\n".to_string().into_bytes();
        let at = numbers.below(line.len() as u64 - 1) as usize;
        line[at] = b' ' + numbers.below(90) as u8;
        String::from_utf8_lossy(&line).into_owned()
    })
}

fn write_all(directory: &Path) -> io::Result<()> {
    fs::create_dir_all(directory)?;
    for (name, text) in [
        ("many-frames-echo", many_frames("echo")),
        ("many-frames-seal", many_frames("seal")),
        ("long-shots-echo", long_shots("echo")),
        ("long-shots-seal", long_shots("seal")),
        ("short-shots", short_shots()),
        ("damaged", damaged()),
    ] {
        fs::write(directory.join(name), text)?;
    }
    Ok(())
}

fn main() -> ExitCode {
    let Some(directory) = env::args().nth(1) else {
        eprintln!("usage: texts DIR");
        return ExitCode::from(2);
    };
    match write_all(Path::new(&directory)) {
        Ok(()) => ExitCode::SUCCESS,
        Err(error) => {
            eprintln!("texts: {directory}: {error}");
            ExitCode::FAILURE
        }
    }
}
