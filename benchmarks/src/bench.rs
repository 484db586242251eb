//! Shots over a carriage: extracted sets and registers in arrays.

use crate::carriage::{Carriage, Frame, Triple, ORIGINS, PLACES};
use crate::text::Value;

pub struct Bench<C> {
    carriage: C,
    running: bool,
    sender: u16,
    closed: u16,
    /// For each place, the controllers that have extracted it.
    extracted: [u16; PLACES],
    tallies: [[u8; 64]; ORIGINS],
}

/// A layer's word and a number of the fault table.
pub type Fault = (&'static str, u16);

pub struct Closed {
    pub shot: u16,
    pub sender: u16,
    pub place: Option<u16>,
}

impl<C: Carriage> Bench<C> {
    pub fn open(carriage: C) -> Bench<C> {
        Bench { carriage, running: false, sender: 0, closed: 0, extracted: [0; PLACES], tallies: [[0; 64]; ORIGINS] }
    }

    fn has_ended(&self) -> bool {
        self.carriage.phase() == 2 * self.carriage.group().t + 3
    }

    pub fn begin(&mut self, list: &[Value], sender: u16, value: Option<&Value>) -> Result<(), Fault> {
        let group = self.carriage.group();
        if self.running {
            return Err(("bench", 9));
        }
        if self.closed >= 999 {
            return Err(("bench", 13));
        }
        if sender >= group.n {
            return Err(("bench", 10));
        }
        if group.is_marked(sender) && value.is_some() {
            return Err(("bench", 11));
        }
        let place = match value {
            None => None,
            Some(value) => match list.iter().position(|listed| listed.is_same(value)) {
                None => return Err(("bench", 12)),
                place => place,
            },
        };
        self.carriage.start();
        self.extracted = [0; PLACES];
        if let Some(place) = place {
            self.extracted[place] = 1 << sender;
            self.carriage.offer(Triple { origin: sender, place: place as u16, round: 1 });
        }
        self.running = true;
        self.sender = sender;
        Ok(())
    }

    pub fn inject(&mut self, frame: Frame) -> Result<(), Fault> {
        if !self.running || self.has_ended() {
            return Err(("bench", 9));
        }
        match self.carriage.inject(frame) {
            None => Ok(()),
            Some(number) => Err(("carriage", number)),
        }
    }

    pub fn turn(&mut self, phase: u16) -> Result<(), Fault> {
        if !self.running || self.has_ended() || phase != self.carriage.phase() {
            return Err(("bench", 9));
        }
        self.carriage.turn();
        if phase % 2 == 0 {
            self.extract(phase / 2);
        }
        Ok(())
    }

    fn extract(&mut self, round: u16) {
        let group = self.carriage.group();
        for place in 0..self.carriage.places() {
            let own = self.carriage.accepted(Triple { origin: self.sender, place, round: 1 });
            let new = own & !self.extracted[place as usize];
            if new == 0 {
                continue;
            }
            let mut origins = [0u16; ORIGINS];
            for origin in 0..group.n {
                let mut vouched = 0;
                for round in 1..=round {
                    vouched |= self.carriage.accepted(Triple { origin, place, round });
                }
                for q in 0..group.n {
                    origins[q as usize] += vouched >> q & 1;
                }
            }
            for q in 0..group.n {
                if new >> q & 1 == 1 && origins[q as usize] >= round {
                    self.extracted[place as usize] |= 1 << q;
                    if round <= group.t {
                        self.carriage.offer(Triple { origin: q, place, round: round + 1 });
                    }
                }
            }
        }
    }

    fn verdict(&self, q: u16) -> Option<u16> {
        let mut found = None;
        for place in 0..self.carriage.places() {
            if self.extracted[place as usize] >> q & 1 == 1 {
                if found.is_some() {
                    return None;
                }
                found = Some(place);
            }
        }
        found
    }

    pub fn close(&mut self, list: &[Value], shot: u16) -> Result<Closed, Fault> {
        if !self.running || !self.has_ended() || u32::from(shot) != u32::from(self.closed) + 1 {
            return Err(("bench", 9));
        }
        let group = self.carriage.group();
        let mut shown = None;
        for q in (0..group.n).filter(|&q| group.is_correct(q)) {
            let verdict = self.verdict(q);
            shown = shown.or(Some(verdict));
            if let Some(block) = verdict.and_then(|place| list[place as usize].charge()) {
                let tally = &mut self.tallies[q as usize][block as usize];
                *tally = (*tally + 1).min(3);
            }
        }
        self.running = false;
        self.closed += 1;
        Ok(Closed { shot, sender: self.sender, place: shown.flatten() })
    }

    pub fn out_of_pool(&self) -> impl Iterator<Item = usize> + '_ {
        let group = self.carriage.group();
        let lowest = (0..group.n).find(|&q| group.is_correct(q)).unwrap_or(0);
        (0..64).filter(move |&block| self.tallies[lowest as usize][block] == 3)
    }
}
