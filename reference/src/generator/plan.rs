//! A well-formed header: the group, the carriage, the kind and the values of a campaign.

use super::random::Random;
use crate::carriage::Style;
use crate::group::Controller;
use crate::value::{Kind, Outcome, Value};

#[derive(Clone, Debug)]
pub struct Plan {
    pub n: u16,
    pub t: u16,
    pub marked: Vec<Controller>,
    pub correct: Vec<Controller>,
    pub style: Style,
    pub kind: Kind,
    pub list: Vec<Value>,
}

impl Plan {
    pub fn any(random: &mut Random) -> Plan {
        let (n, t) = any_size(random);
        Plan::of_size(random, n, t)
    }

    /// A plan with at least one marked controller.
    pub fn with_marked(random: &mut Random) -> Plan {
        loop {
            let plan = Plan::any(random);
            if !plan.marked.is_empty() {
                return plan;
            }
        }
    }

    pub fn of_size(random: &mut Random, n: u16, t: u16) -> Plan {
        let all: Vec<Controller> = (0..n).collect();
        let count = if random.once_in(4) { random.between(0, t) } else { t };
        let mut marked = random.some_of(&all, usize::from(count));
        marked.sort_unstable();
        let correct = all.into_iter().filter(|c| !marked.contains(c)).collect();
        let style = random.pick(&[Style::Echo, Style::Seal]);
        let kind = random.pick(&[Kind::Notice, Kind::Pulse]);
        let list = any_list(random, kind);
        Plan { n, t, marked, correct, style, kind, list }
    }

    pub fn last_phase(&self) -> u16 {
        2 * (self.t + 1)
    }

    pub fn header(&self) -> Vec<String> {
        let style = match self.style {
            Style::Echo => "echo",
            Style::Seal => "seal",
        };
        let kind = match self.kind {
            Kind::Notice => "notice",
            Kind::Pulse => "pulse",
        };
        let mut lines = vec![
            "bench=1".to_string(),
            format!("n={}", self.n),
            format!("t={}", self.t),
            format!("marks={}", written_marks(&self.marked)),
            format!("carriage={style}"),
            format!("kind={kind}"),
            format!("values={}", self.list.len()),
        ];
        lines.extend(self.list.iter().map(|value| format!("v={value}")));
        lines
    }

    /// A value of the list as a sender may say it: the tick is free.
    pub fn said(&self, random: &mut Random) -> Value {
        match random.pick(&self.list) {
            Value::Notice { outcome, block, .. } => Value::Notice { outcome, block, tick: any_tick(random) },
            pulse => pulse,
        }
    }
}

pub fn written_marks(marks: &[Controller]) -> String {
    if marks.is_empty() {
        return "-".to_string();
    }
    let marks: Vec<String> = marks.iter().map(Controller::to_string).collect();
    marks.join(",")
}

fn any_size(random: &mut Random) -> (u16, u16) {
    let known = [(1, 0), (2, 0), (3, 0), (4, 1), (4, 1), (5, 1), (6, 1), (7, 2), (7, 2), (10, 3), (13, 4), (16, 5)];
    if random.once_in(3) {
        let n = random.between(1, 16);
        return (n, random.between(0, (n - 1) / 3));
    }
    random.pick(&known)
}

pub fn any_tick(random: &mut Random) -> u16 {
    match random.below(4) {
        0 => 0,
        1 => 65535,
        _ => random.between(0, 65535),
    }
}

/// Blocks at the edges, and few others, so that values meet again.
fn any_block(random: &mut Random) -> u16 {
    match random.below(3) {
        0 => random.pick(&[0, 63]),
        1 => random.between(0, 5),
        _ => random.between(0, 63),
    }
}

/// A value of this kind; more than half of them charge a block.
pub fn any_value(random: &mut Random, kind: Kind) -> Value {
    let block = any_block(random);
    let charging = random.below(5) < 3;
    match kind {
        Kind::Notice => {
            let outcome = if charging { Outcome::Failed } else { Outcome::Passed };
            Value::Notice { outcome, block, tick: any_tick(random) }
        }
        Kind::Pulse => {
            let pulses = if charging { 8 } else { random.between(1, 8) };
            Value::Pulse { block, pulses }
        }
    }
}

fn any_list(random: &mut Random, kind: Kind) -> Vec<Value> {
    let length = random.pick(&[1, 2, 2, 3, 4]);
    let mut list: Vec<Value> = Vec::new();
    while list.len() < length {
        let value = any_value(random, kind);
        if !list.iter().any(|listed| listed.same(&value)) {
            list.push(value);
        }
    }
    list
}
