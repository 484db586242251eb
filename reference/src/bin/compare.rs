//! `compare PROGRAM FIRST_SEED COUNT`: runs a program on generated campaigns and compares what it prints,
//! byte by byte, with the reports of this package.

use reference::campaign;
use reference::generator::generate;
use reference::statistics::Statistics;
use std::io::{self, Read, Write};
use std::path::PathBuf;
use std::process::{Command, ExitCode, ExitStatus, Stdio};
use std::{env, fs, thread};

struct Order {
    program: String,
    first: u64,
    count: u64,
}

struct Answer {
    output: Vec<u8>,
    status: ExitStatus,
}

fn read_order(arguments: &[String]) -> Option<Order> {
    let [program, first, count] = arguments else {
        return None;
    };
    Some(Order { program: program.clone(), first: first.parse().ok()?, count: count.parse().ok()? })
}

/// Runs the program on the text. It may stop reading before the end of the text.
fn answer_of(program: &str, text: &[u8]) -> io::Result<Answer> {
    let mut child = Command::new(program).stdin(Stdio::piped()).stdout(Stdio::piped()).spawn()?;
    let input = child.stdin.take();
    let mut output = Vec::new();
    let read = thread::scope(|scope| {
        scope.spawn(move || input.map(|mut pipe| pipe.write_all(text)));
        child.stdout.take().map_or(Ok(0), |mut pipe| pipe.read_to_end(&mut output))
    });
    let status = child.wait()?;
    read?;
    Ok(Answer { output, status })
}

fn show_difference(expected: &[u8], found: &[u8]) {
    let mut expected = expected.split(|&byte| byte == b'\n');
    let mut found = found.split(|&byte| byte == b'\n');
    for number in 1.. {
        let (one, two) = (expected.next(), found.next());
        if one != two {
            let shown = |line: Option<&[u8]>| line.map(|line| String::from_utf8_lossy(line).into_owned());
            println!("first difference in line {number} of the output");
            println!("reference: {:?}", shown(one));
            println!("program:   {:?}", shown(two));
            return;
        }
        if one.is_none() {
            return;
        }
    }
}

fn keep(seed: u64, text: &[u8]) -> io::Result<PathBuf> {
    let path = env::temp_dir().join(format!("campaign-{seed}.txt"));
    fs::write(&path, text)?;
    Ok(path)
}

/// Whether all agreed.
fn compare(order: &Order, statistics: &mut Statistics) -> io::Result<bool> {
    for seed in order.first..order.first.saturating_add(order.count) {
        let text = generate(seed);
        let expected = campaign(&text);
        let answer = answer_of(&order.program, &text)?;
        if answer.output != expected.as_bytes() || answer.status.code() != Some(0) {
            println!("seed {seed} differs; the program ended with {}", answer.status);
            println!("its text is in {}", keep(seed, &text)?.display());
            show_difference(expected.as_bytes(), &answer.output);
            return Ok(false);
        }
        statistics.add(&text, &expected);
    }
    Ok(true)
}

fn main() -> ExitCode {
    let arguments: Vec<String> = env::args().skip(1).collect();
    let Some(order) = read_order(&arguments) else {
        eprintln!("usage: compare PROGRAM FIRST_SEED COUNT");
        return ExitCode::from(2);
    };
    let mut statistics = Statistics::default();
    match compare(&order, &mut statistics) {
        Ok(true) => {
            println!("{} campaigns agree: {statistics}", order.count);
            ExitCode::SUCCESS
        }
        Ok(false) => ExitCode::FAILURE,
        Err(error) => {
            eprintln!("compare: {}: {error}", order.program);
            ExitCode::from(2)
        }
    }
}
