//! What occurred in campaigns, counted from their texts and reports.

use std::collections::BTreeMap;
use std::fmt;

#[derive(Clone, Debug, Default, PartialEq, Eq)]
pub struct Statistics {
    pub campaigns: usize,
    pub shots_closed: usize,
    pub sender_faulty: usize,
    /// Shots in which a place of a marked sender's was agreed on.
    pub marked_agreed: usize,
    pub retired_blocks: usize,
    pub header_faults: usize,
    pub refusals: usize,
    pub refusals_by_number: BTreeMap<u8, usize>,
}

impl Statistics {
    pub fn add(&mut self, text: &[u8], report: &str) {
        self.campaigns += 1;
        let marks = marks_of(text);
        for line in report.lines() {
            match line.split_once('=') {
                Some(("shot", shot)) => self.add_shot(shot, &marks),
                Some(("refused", refusal)) => self.add_refusal(refusal),
                Some(("out", blocks)) if blocks != "-" => self.retired_blocks += blocks.split(',').count(),
                _ => {}
            }
        }
        if !report.lines().any(|line| line.starts_with("out=")) {
            self.header_faults += 1;
        }
    }

    fn add_shot(&mut self, shot: &str, marks: &[String]) {
        let fields: Vec<&str> = shot.split(',').collect();
        self.shots_closed += 1;
        if fields[2] == "sf" {
            self.sender_faulty += 1;
        } else if marks.iter().any(|mark| mark == fields[1]) {
            self.marked_agreed += 1;
        }
    }

    fn add_refusal(&mut self, refusal: &str) {
        self.refusals += 1;
        if let Some(number) = refusal.rsplit(',').next().and_then(|number| number.parse().ok()) {
            *self.refusals_by_number.entry(number).or_insert(0) += 1;
        }
    }
}

/// The marks as the fourth line writes them.
fn marks_of(text: &[u8]) -> Vec<String> {
    let line = text.split(|&byte| byte == b'\n').nth(3).unwrap_or(&[]);
    let line = String::from_utf8_lossy(line).into_owned();
    let marks = line.strip_prefix("marks=").unwrap_or("");
    marks.split(',').map(str::to_string).collect()
}

impl fmt::Display for Statistics {
    fn fmt(&self, f: &mut fmt::Formatter<'_>) -> fmt::Result {
        write!(f, "{} shots closed, ", self.shots_closed)?;
        write!(f, "{} sender faulty, ", self.sender_faulty)?;
        write!(f, "{} agreed on a marked sender's value, ", self.marked_agreed)?;
        write!(f, "{} retired blocks, ", self.retired_blocks)?;
        write!(f, "{} header faults, {} refusals (", self.header_faults, self.refusals)?;
        for (index, (number, count)) in self.refusals_by_number.iter().enumerate() {
            let gap = if index == 0 { "" } else { " " };
            write!(f, "{gap}{number}:{count}")?;
        }
        write!(f, ")")
    }
}
