//! The bench: shots, verdicts and tallies.

use crate::carriage::{Carriage, Frame, Phase, Round, Triple};
use crate::fault::Fault;
use crate::group::{Controller, Group};
use crate::value::{check_block, check_length, check_list, place_of, Block, Place, Value, LAST_BLOCK};
use std::collections::{BTreeMap, BTreeSet};

pub type Shot = u16;

pub const MOST_SHOTS: Shot = 999;
pub const FULL_TALLY: u8 = 3;

#[derive(Clone, Copy, Debug, PartialEq, Eq)]
pub enum Verdict {
    At(Place),
    SenderFaulty,
}

#[derive(Clone, Copy, Debug, PartialEq, Eq)]
pub enum Moment {
    Idle,
    Running { sender: Controller },
    Ended { sender: Controller },
}

/// A shot that was closed, with the verdict of every correct controller.
#[derive(Clone, Debug, PartialEq, Eq)]
pub struct Closed {
    pub shot: Shot,
    pub sender: Controller,
    pub verdicts: BTreeMap<Controller, Verdict>,
}

#[derive(Clone, Debug, PartialEq, Eq)]
pub struct Bench {
    carriage: Carriage,
    sender: Option<Controller>,
    extracted: BTreeMap<Controller, BTreeSet<Place>>,
    tallies: BTreeMap<(Controller, Block), u8>,
    closed: Shot,
}

impl Bench {
    pub fn open(carriage: Carriage, list: &[Value]) -> Result<Bench, Fault> {
        check_length_for(&carriage, list)?;
        check_list(list)?;
        let extracted = empty_sets(carriage.group());
        Ok(Bench { carriage, sender: None, extracted, tallies: BTreeMap::new(), closed: 0 })
    }

    pub fn carriage(&self) -> &Carriage {
        &self.carriage
    }

    pub fn extracted(&self) -> &BTreeMap<Controller, BTreeSet<Place>> {
        &self.extracted
    }

    pub fn closed(&self) -> Shot {
        self.closed
    }

    pub fn moment(&self) -> Moment {
        match self.sender {
            None => Moment::Idle,
            Some(sender) if self.carriage.phase() <= self.carriage.last_phase() => Moment::Running { sender },
            Some(sender) => Moment::Ended { sender },
        }
    }

    pub fn begin(&mut self, list: &[Value], sender: Controller, value: Option<&Value>) -> Result<(), Fault> {
        let place = self.check_begin(list, sender, value)?;
        self.carriage.start();
        self.extracted = empty_sets(self.carriage.group());
        self.sender = Some(sender);
        if let Some(place) = place {
            self.extracted.entry(sender).or_default().insert(place);
            self.carriage.offer(Triple::new(sender, place, 1))?;
        }
        Ok(())
    }

    /// The place of the sender's value, if it is given one.
    fn check_begin(&self, list: &[Value], sender: Controller, value: Option<&Value>) -> Result<Option<Place>, Fault> {
        if self.moment() != Moment::Idle {
            return Err(Fault::Moment);
        }
        check_length_for(&self.carriage, list)?;
        if self.closed >= MOST_SHOTS {
            return Err(Fault::Shots);
        }
        if sender >= self.carriage.group().n() {
            return Err(Fault::Sender);
        }
        let Some(value) = value else {
            return Ok(None);
        };
        if self.carriage.group().is_marked(sender) {
            return Err(Fault::MarkedSender);
        }
        place_of(list, value).map(Some).ok_or(Fault::NotListed)
    }

    pub fn inject(&mut self, frame: Frame) -> Result<(), Fault> {
        let Moment::Running { .. } = self.moment() else {
            return Err(Fault::Moment);
        };
        self.carriage.inject(frame)
    }

    pub fn turn(&mut self, phase: Phase) -> Result<(), Fault> {
        let Moment::Running { sender } = self.moment() else {
            return Err(Fault::Moment);
        };
        if phase != self.carriage.phase() {
            return Err(Fault::Moment);
        }
        self.carriage.turn()?;
        if phase % 2 == 0 {
            self.extract(sender, phase / 2)?;
        }
        Ok(())
    }

    /// What happens after the turn of phase 2i.
    fn extract(&mut self, sender: Controller, i: Round) -> Result<(), Fault> {
        for q in self.carriage.group().correct() {
            for v in 0..self.carriage.length() as Place {
                if self.extracted[&q].contains(&v) || !self.extracts(q, sender, v, i) {
                    continue;
                }
                self.extracted.entry(q).or_default().insert(v);
                if i <= self.carriage.group().t() {
                    self.carriage.offer(Triple::new(q, v, i + 1))?;
                }
            }
        }
        Ok(())
    }

    /// q holds (sender, v, 1), and triples (p, v, j) with j <= i of at least i different origins p.
    fn extracts(&self, q: Controller, sender: Controller, v: Place, i: Round) -> bool {
        let held = self.carriage.accepted(q);
        let vouching = held.iter().filter(|triple| triple.place == v && triple.round <= i);
        let origins: BTreeSet<Controller> = vouching.map(|triple| triple.origin).collect();
        held.contains(&Triple::new(sender, v, 1)) && origins.len() >= usize::from(i)
    }

    pub fn verdict(&self, controller: Controller) -> Result<Verdict, Fault> {
        let Moment::Ended { .. } = self.moment() else {
            return Err(Fault::Moment);
        };
        let extracted = self.extracted.get(&controller).ok_or(Fault::NotCorrect)?;
        match extracted.first() {
            Some(&place) if extracted.len() == 1 => Ok(Verdict::At(place)),
            _ => Ok(Verdict::SenderFaulty),
        }
    }

    pub fn close(&mut self, list: &[Value], shot: Shot) -> Result<Closed, Fault> {
        let Moment::Ended { sender } = self.moment() else {
            return Err(Fault::Moment);
        };
        if shot != self.closed + 1 {
            return Err(Fault::Moment);
        }
        check_length_for(&self.carriage, list)?;
        let mut verdicts = BTreeMap::new();
        for q in self.carriage.group().correct() {
            verdicts.insert(q, self.verdict(q)?);
        }
        for (&q, &verdict) in &verdicts {
            self.charge(list, q, verdict);
        }
        self.closed = shot;
        self.sender = None;
        Ok(Closed { shot, sender, verdicts })
    }

    fn charge(&mut self, list: &[Value], q: Controller, verdict: Verdict) {
        let Verdict::At(place) = verdict else {
            return;
        };
        if let Some(block) = list[usize::from(place)].charges() {
            let tally = self.tallies.entry((q, block)).or_insert(0);
            *tally = FULL_TALLY.min(*tally + 1);
        }
    }

    pub fn tally(&self, controller: Controller, block: Block) -> Result<u8, Fault> {
        check_block(block)?;
        if !self.carriage.group().is_correct(controller) {
            return Err(Fault::NotCorrect);
        }
        Ok(self.tallies.get(&(controller, block)).copied().unwrap_or(0))
    }

    /// The blocks out of the pool at a correct controller, rising.
    pub fn out_of_pool(&self, controller: Controller) -> Vec<Block> {
        let is_out = |block: &Block| self.tally(controller, *block) == Ok(FULL_TALLY);
        (0..=LAST_BLOCK).filter(is_out).collect()
    }
}

fn empty_sets(group: &Group) -> BTreeMap<Controller, BTreeSet<Place>> {
    group.correct().into_iter().map(|q| (q, BTreeSet::new())).collect()
}

fn check_length_for(carriage: &Carriage, list: &[Value]) -> Result<(), Fault> {
    check_length(list.len())?;
    if list.len() != carriage.length() {
        return Err(Fault::Length);
    }
    Ok(())
}
