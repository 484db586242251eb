//! Acts and headers that are to be refused, most of them.

use super::plan::{any_tick, any_value, written_marks, Plan};
use super::random::Random;
use crate::value::Kind;

/// Lines that are near an act; all but a few cannot be read.
const UNREADABLE: [&str; 78] = [
    "",
    "=",
    "turn",
    "turn=",
    "turn=01",
    "turn=+1",
    "turn=-1",
    "turn=1,",
    "turn=1 ",
    " turn=1",
    "Turn=1",
    "turn=65536",
    "turn=65535",
    "turn=99999",
    "turn=100000",
    "turn==1",
    "turn=1=1",
    "turn=00",
    "turn=0",
    "turn=0x1",
    "close=",
    "close=1,1",
    "close=-",
    "close=001",
    "close=1\r",
    "begin",
    "begin=",
    "begin=0",
    "begin=0,",
    "begin=,-",
    "begin=0,-,",
    "begin=0,-,0",
    "begin=-,-",
    "begin=00,-",
    "begin=0,F",
    "begin=0,F,5",
    "begin=0,F,5,",
    "begin=0,F,5,0,0",
    "begin=0,f,5,0",
    "begin=0,E,5,0",
    "begin=0,FF,5,0",
    "begin=0,F,05,0",
    "begin=0,F,64,65536",
    "begin=0,F,65536,0",
    "begin=65536,F,64,0",
    "begin=0,5",
    "begin=0,5,",
    "begin=0,5,8,0",
    "begin=0,64,09",
    "begin=0,05,8",
    "begin=0,5,65536",
    "begin=0,--",
    "inject=",
    "inject=3,0,i,3,1",
    "inject=3,0,i,3,1,0,0",
    "inject=3,0,x,3,1,0",
    "inject=3,0,I,3,1,0",
    "inject=3,0,ee,3,1,0",
    "inject=3,0,,3,1,0",
    "inject=3,0,s,3,1,00",
    "inject=65536,0,e,3,1,0",
    "inject=3,0,e,3,1,65536",
    "inject=3,0,e,3,-1,0",
    "inject=3,0,1,3,1,0",
    "inject=3,0,e,,1,0",
    "v=F,5,0",
    "v=5,8",
    "n=4",
    "bench=1",
    "#",
    "end=0,0",
    "values=1",
    "turns=1",
    "tur=1",
    "turn:1",
    "verdict=0",
    "tally=0,0",
    "open=1",
];

/// A number of no meaning here, often at an edge.
fn odd_number(random: &mut Random) -> u16 {
    match random.below(5) {
        0 => 65535,
        1 => 16,
        2 => random.between(0, 20),
        3 => random.between(60, 70),
        _ => random.between(0, 65535),
    }
}

/// Mostly the good number.
fn perhaps(random: &mut Random, good: u16) -> u16 {
    if random.once_in(4) {
        return odd_number(random);
    }
    good
}

/// Puts faulty acts among the lines of shots.
pub fn among(random: &mut Random, plan: &Plan, acts: Vec<String>) -> Vec<String> {
    let odds = random.pick(&[1, 2, 4, 10]);
    let mut lines = Vec::new();
    for act in acts {
        // A faulty begin before a begin is not refused for its moment.
        if act.starts_with("begin") && random.once_in(2) {
            lines.push(begin(random, plan));
        }
        while random.once_in(odds + 1) {
            lines.push(act_of_any_kind(random, plan));
        }
        lines.push(act);
    }
    lines
}

pub fn act_of_any_kind(random: &mut Random, plan: &Plan) -> String {
    match random.below(8) {
        0 => format!("turn={}", perhaps_below(random, plan.last_phase() + 3)),
        1 => format!("close={}", perhaps_below(random, 6)),
        2 | 3 => begin(random, plan),
        4..=6 => inject(random, plan),
        _ => unreadable(random, plan),
    }
}

fn perhaps_below(random: &mut Random, bound: u16) -> u16 {
    let good = random.between(0, bound - 1);
    perhaps(random, good)
}

fn begin(random: &mut Random, plan: &Plan) -> String {
    let anyone = perhaps_below(random, plan.n + 1);
    let sender = if plan.marked.is_empty() || random.once_in(2) { anyone } else { random.pick(&plan.marked) };
    let value = match random.below(8) {
        0 => "-".to_string(),
        1 | 2 => plan.said(random).to_string(),
        3 => out_of_range(random, plan.kind),
        4 => any_value(random, other(plan.kind)).to_string(),
        _ => any_value(random, plan.kind).to_string(),
    };
    format!("begin={sender},{value}")
}

fn other(kind: Kind) -> Kind {
    match kind {
        Kind::Notice => Kind::Pulse,
        Kind::Pulse => Kind::Notice,
    }
}

/// A value in its form with a number out of its range.
fn out_of_range(random: &mut Random, kind: Kind) -> String {
    let block = random.pick(&[0, 63, 64, 64, 65, 65535]);
    match kind {
        Kind::Notice => format!("{},{block},{}", random.pick(&['F', 'P']), any_tick(random)),
        Kind::Pulse => format!("{block},{}", random.pick(&[0, 1, 8, 9, 65535])),
    }
}

/// A frame each of whose fields may be wrong.
fn inject(random: &mut Random, plan: &Plan) -> String {
    let wrong = random.pick(&[2, 4, 8]);
    let marked = if plan.marked.is_empty() { plan.n } else { random.pick(&plan.marked) };
    let correct = random.pick(&plan.correct);
    let anyone = random.between(0, plan.n);
    let mut field = |good: u16, bad: u16| {
        let choice = if random.once_in(wrong) { bad } else { good };
        if random.once_in(4 * wrong) {
            odd_number(random)
        } else {
            choice
        }
    };
    let from = field(marked, correct);
    let to = field(correct, if marked < anyone { marked } else { anyone });
    let origin = field(marked, anyone);
    let round = field(1 + anyone % (plan.t + 1), if anyone % 2 == 0 { 0 } else { plan.t + 2 });
    let place = field(anyone % plan.list.len() as u16, plan.list.len() as u16);
    let letter = random.pick(&["i", "e", "s"]);
    format!("inject={from},{to},{letter},{origin},{round},{place}")
}

/// A line that is near an act and cannot be read.
fn unreadable(random: &mut Random, plan: &Plan) -> String {
    if random.once_in(6) {
        return filled(random, plan);
    }
    random.pick(&UNREADABLE).to_string()
}

/// A line of 63 to 66 bytes, or much longer.
fn filled(random: &mut Random, plan: &Plan) -> String {
    let length = random.pick(&[63, 64, 64, 65, 65, 66, 128, 1000]);
    let start = if random.once_in(2) { format!("turn={}", plan.n) } else { String::new() };
    format!("{start:0<length$}")
}

/// A header in which one line is faulty, now and then a second one.
pub fn header(random: &mut Random, plan: &Plan) -> Vec<String> {
    let mut lines = plan.header();
    let faults = if random.once_in(4) { 2 } else { 1 };
    for _ in 0..faults {
        match random.below(16) {
            0 => lines[0] = faulty_first(random),
            1 => lines[1] = faulty_number(random, "n"),
            2 => lines[2] = faulty_number(random, "t"),
            3..=6 => faulty_group(random, plan, &mut lines),
            7 | 8 => lines[3] = faulty_marks(random, plan),
            9 => lines[4] = format!("carriage={}", faulty_word(random)),
            10 => lines[5] = format!("kind={}", faulty_word(random)),
            11 => lines[6] = faulty_number(random, "values"),
            12 => faulty_value(random, plan, &mut lines),
            13 | 14 => repeated(random, &mut lines),
            _ => displaced(random, &mut lines),
        }
    }
    lines
}

fn faulty_first(random: &mut Random) -> String {
    let lines = [
        "bench=2",
        "bench=0",
        "bench=",
        "bench=01",
        "bench=1 ",
        "Bench=1",
        "bench",
        "",
        "n=4",
        "bench=1,1",
        "bench=65536",
    ];
    random.pick(&lines).to_string()
}

fn faulty_number(random: &mut Random, key: &str) -> String {
    let numbers =
        ["", "-", "-1", "+1", "01", "00", "0", "5", "17", "65535", "65536", "4 ", " 4", "4,", "x", "4\r", "1000000"];
    let number = random.pick(&numbers);
    if random.once_in(10) {
        return format!("{key}{key}={number}");
    }
    format!("{key}={number}")
}

/// Groups that cannot exist: 4, 5 and 6, alone and together.
fn faulty_group(random: &mut Random, plan: &Plan, lines: &mut [String]) {
    let all: Vec<u16> = (0..16).collect();
    match random.below(5) {
        0 => lines[1] = format!("n={}", random.pick(&[0, 17, 18, 255, 256, 65535])),
        1 => lines[1] = format!("n={}", 3 * plan.t),
        2 => lines[2] = format!("t={}", random.pick(&[plan.n.div_ceil(3), plan.n, 21846, 43691, 65535])),
        _ => {
            let count = random.between(1, plan.t + 2);
            let mut marks = random.some_of(&all, usize::from(count));
            marks.sort_unstable();
            lines[3] = format!("marks={}", written_marks(&marks));
        }
    }
}

fn faulty_marks(random: &mut Random, plan: &Plan) -> String {
    let marks = [
        "",
        "-,",
        "--",
        ",",
        "0,",
        ",0",
        "1,0",
        "1,1",
        "0,0",
        "16",
        "15,16",
        "65535",
        "65536",
        "16,15",
        "00",
        "0,01",
        "-1",
        "0,1,2,3,4,5,6,7,8,9,10,11,12,13,14,15",
        "0;1",
        "0 1",
        "x",
        "0,1,2,3,4,5,6,7,8,9,10,11,12,13,14,16",
    ];
    match random.below(6) {
        0 => format!("marks={}", plan.n),
        1 => format!("marks={}", long_marks(random)),
        2 => format!("marks={0},{0}", random.between(0, plan.n)),
        _ => format!("marks={}", random.pick(&marks)),
    }
}

/// Rising marks that make a line of 63 to 66 bytes.
fn long_marks(random: &mut Random) -> String {
    let start = "0,1,2,3,4,5,6,7,8,9,10,11,12,13,14,15,20,30,40,50";
    let end = random.pick(&["60,7000", "60,70,80", "60,70,800", "60,70,8000"]);
    format!("{start},{end}")
}

fn faulty_word(random: &mut Random) -> &'static str {
    random.pick(&[
        "", "Echo", "echo ", "echoe", "ech", "seals", "seal,", "echo", "seal", "notice", "pulse", "Notice", "pulses",
        "-", "1",
    ])
}

fn faulty_value(random: &mut Random, plan: &Plan, lines: &mut [String]) {
    let texts = [
        "",
        "-",
        "F",
        "F,5",
        "F,5,0,0",
        "f,5,0",
        "X,5,0",
        "F,05,0",
        "F,64,65536",
        "5",
        "5,8,0",
        "5,08",
        "64,x",
        "5,-",
        ",",
        ",,",
    ];
    let line = (7 + random.below(plan.list.len())).min(lines.len() - 1);
    let value = match random.below(5) {
        0 => random.pick(&texts).to_string(),
        1 => any_value(random, other(plan.kind)).to_string(),
        _ => out_of_range(random, plan.kind),
    };
    lines[line] = format!("v={value}");
}

/// The last value the same as another one, if the list has two; its tick may differ.
fn repeated(random: &mut Random, lines: &mut [String]) {
    let last = lines.len() - 1;
    let same = lines[7 + random.below(last - 7)].clone();
    let notice = same.starts_with("v=F") || same.starts_with("v=P");
    lines[last] = match same.rsplit_once(',') {
        Some((start, _)) if notice => format!("{start},{}", any_tick(random)),
        _ => same,
    };
}

/// A line missing, twice there, swapped with another, or an empty one before it. Eight lines stay.
fn displaced(random: &mut Random, lines: &mut Vec<String>) {
    let (one, two) = (random.below(lines.len()), random.below(lines.len()));
    match random.below(4) {
        0 => {
            lines.remove(one);
        }
        1 => lines.insert(one, lines[one].clone()),
        2 => lines.swap(one, two),
        _ => lines.insert(one, String::new()),
    }
    while lines.len() < 8 {
        lines.push("v=P,1,0".to_string());
    }
}
