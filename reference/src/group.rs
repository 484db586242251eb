//! Groups of controllers.

use crate::fault::Fault;
use std::collections::BTreeSet;

pub type Controller = u16;

pub const MOST_CONTROLLERS: u16 = 16;
pub const LAST_MARK: Controller = 15;

#[derive(Clone, Debug, PartialEq, Eq)]
pub struct Group {
    n: u16,
    t: u16,
    marks: BTreeSet<Controller>,
}

impl Group {
    pub fn new(n: u16, t: u16, marks: BTreeSet<Controller>) -> Result<Group, Fault> {
        if marks.iter().any(|&mark| mark > LAST_MARK) {
            return Err(Fault::Mark);
        }
        if !(1..=MOST_CONTROLLERS).contains(&n) {
            return Err(Fault::Size);
        }
        if u32::from(n) <= 3 * u32::from(t) {
            return Err(Fault::Tolerance);
        }
        if marks.iter().any(|&mark| mark >= n) || marks.len() > usize::from(t) {
            return Err(Fault::Marks);
        }
        Ok(Group { n, t, marks })
    }

    pub fn n(&self) -> u16 {
        self.n
    }

    pub fn t(&self) -> u16 {
        self.t
    }

    pub fn is_marked(&self, controller: Controller) -> bool {
        self.marks.contains(&controller)
    }

    /// A controller of the group that is not marked.
    pub fn is_correct(&self, controller: Controller) -> bool {
        controller < self.n && !self.is_marked(controller)
    }

    pub fn correct(&self) -> Vec<Controller> {
        (0..self.n).filter(|&c| self.is_correct(c)).collect()
    }

    pub fn lowest_correct(&self) -> Controller {
        self.correct()[0]
    }
}
