//! The two carriages. Every frame that a correct controller hears is kept with the phase in which it was
//! heard, and the rules are read off that record.

use crate::fault::Fault;
use crate::group::{Controller, Group};
use crate::value::{check_length, Place};
use std::collections::{BTreeMap, BTreeSet};

pub type Phase = u16;
pub type Round = u16;

/// The origin vouches in this round for the value at this place.
#[derive(Clone, Copy, Debug, PartialEq, Eq, PartialOrd, Ord)]
pub struct Triple {
    pub origin: Controller,
    pub place: Place,
    pub round: Round,
}

impl Triple {
    pub fn new(origin: Controller, place: Place, round: Round) -> Triple {
        Triple { origin, place, round }
    }

    /// Phase 2i - 1.
    fn first_phase(&self) -> Phase {
        2 * self.round - 1
    }

    /// Phase 2i.
    fn second_phase(&self) -> Phase {
        2 * self.round
    }
}

#[derive(Clone, Copy, Debug, PartialEq, Eq, PartialOrd, Ord)]
pub enum Letter {
    Init,
    Echo,
    Seal,
}

#[derive(Clone, Copy, Debug, PartialEq, Eq)]
pub struct Frame {
    pub from: Controller,
    pub to: Controller,
    pub letter: Letter,
    pub triple: Triple,
}

#[derive(Clone, Copy, Debug, PartialEq, Eq)]
pub enum Style {
    Seal,
    Echo,
}

/// That `to` heard a frame of this letter from `from` in this phase.
#[derive(Clone, Copy, Debug, PartialEq, Eq, PartialOrd, Ord)]
struct Hearing {
    to: Controller,
    letter: Letter,
    phase: Phase,
    from: Controller,
}

#[derive(Clone, Debug, PartialEq, Eq)]
pub struct Carriage {
    style: Style,
    group: Group,
    length: usize,
    phase: Phase,
    offered: BTreeSet<Triple>,
    accepted: BTreeMap<Controller, BTreeSet<Triple>>,
    witnesses: BTreeSet<(Controller, Triple)>,
    heard: BTreeMap<Triple, BTreeSet<Hearing>>,
}

impl Carriage {
    pub fn new(style: Style, group: Group, length: usize) -> Result<Carriage, Fault> {
        check_length(length)?;
        let mut carriage = Carriage {
            style,
            group,
            length,
            phase: 1,
            offered: BTreeSet::new(),
            accepted: BTreeMap::new(),
            witnesses: BTreeSet::new(),
            heard: BTreeMap::new(),
        };
        carriage.start();
        Ok(carriage)
    }

    pub fn group(&self) -> &Group {
        &self.group
    }

    pub fn length(&self) -> usize {
        self.length
    }

    pub fn phase(&self) -> Phase {
        self.phase
    }

    /// Phase 2(t + 1).
    pub fn last_phase(&self) -> Phase {
        2 * (self.group.t() + 1)
    }

    pub fn start(&mut self) {
        self.phase = 1;
        self.offered.clear();
        self.accepted = self.group.correct().into_iter().map(|q| (q, BTreeSet::new())).collect();
        self.witnesses.clear();
        self.heard.clear();
    }

    pub fn offer(&mut self, triple: Triple) -> Result<(), Fault> {
        self.check_range(triple)?;
        if !self.group.is_correct(triple.origin) || self.phase != triple.first_phase() {
            return Err(Fault::Offer);
        }
        self.offered.insert(triple);
        let letter = match self.style {
            Style::Seal => Letter::Seal,
            Style::Echo => Letter::Init,
        };
        self.send_to_all(triple.origin, letter, triple);
        Ok(())
    }

    pub fn inject(&mut self, frame: Frame) -> Result<(), Fault> {
        if !self.group.is_marked(frame.from) {
            return Err(Fault::From);
        }
        self.check_correct(frame.to)?;
        if !self.knows(frame.letter) {
            return Err(Fault::Letter);
        }
        self.check_range(frame.triple)?;
        let forged = self.group.is_correct(frame.triple.origin) && !self.offered.contains(&frame.triple);
        if self.style == Style::Seal && forged {
            return Err(Fault::Seal);
        }
        self.hear(frame);
        Ok(())
    }

    pub fn turn(&mut self) -> Result<(), Fault> {
        if self.phase > self.last_phase() {
            return Err(Fault::Turn);
        }
        match self.style {
            Style::Seal => self.turn_seals(),
            Style::Echo => self.turn_echoes(),
        }
        Ok(())
    }

    pub fn held(&self, controller: Controller, triple: Triple) -> Result<bool, Fault> {
        self.check_correct(controller)?;
        self.check_range(triple)?;
        Ok(self.accepted[&controller].contains(&triple))
    }

    /// Whether the controller is a witness of the triple; refused like `held`.
    pub fn witness(&self, controller: Controller, triple: Triple) -> Result<bool, Fault> {
        self.check_correct(controller)?;
        self.check_range(triple)?;
        Ok(self.witnesses.contains(&(controller, triple)))
    }

    /// All that a correct controller has accepted.
    pub fn accepted(&self, controller: Controller) -> &BTreeSet<Triple> {
        &self.accepted[&controller]
    }

    pub fn offered(&self) -> &BTreeSet<Triple> {
        &self.offered
    }

    fn check_correct(&self, controller: Controller) -> Result<(), Fault> {
        if !self.group.is_correct(controller) {
            return Err(Fault::NotCorrect);
        }
        Ok(())
    }

    fn check_range(&self, triple: Triple) -> Result<(), Fault> {
        let origin = triple.origin < self.group.n();
        let place = usize::from(triple.place) < self.length;
        let round = (1..=self.group.t() + 1).contains(&triple.round);
        if !(origin && place && round) {
            return Err(Fault::Range);
        }
        Ok(())
    }

    fn knows(&self, letter: Letter) -> bool {
        match self.style {
            Style::Seal => letter == Letter::Seal,
            Style::Echo => letter == Letter::Init || letter == Letter::Echo,
        }
    }

    fn hear(&mut self, frame: Frame) {
        let Frame { from, to, letter, triple } = frame;
        let hearing = Hearing { to, letter, phase: self.phase, from };
        self.heard.entry(triple).or_default().insert(hearing);
    }

    /// To all, the origin of the frame included; what marked controllers hear is of no account.
    fn send_to_all(&mut self, from: Controller, letter: Letter, triple: Triple) {
        for to in self.group.correct() {
            self.hear(Frame { from, to, letter, triple });
        }
    }

    /// The different controllers from which `to` heard such frames in the phases `since` to `until`.
    fn sources(
        &self,
        to: Controller,
        letter: Letter,
        triple: Triple,
        since: Phase,
        until: Phase,
    ) -> BTreeSet<Controller> {
        let (Some(hearings), true) = (self.heard.get(&triple), since <= until) else {
            return BTreeSet::new();
        };
        let first = Hearing { to, letter, phase: since, from: 0 };
        let last = Hearing { to, letter, phase: until, from: Controller::MAX };
        hearings.range(first..=last).map(|hearing| hearing.from).collect()
    }

    /// Every correct controller with every triple of which anything was heard.
    fn pairs(&self) -> Vec<(Controller, Triple)> {
        let correct = self.group.correct();
        let with_all = |&triple: &Triple| correct.iter().map(move |&q| (q, triple)).collect::<Vec<_>>();
        self.heard.keys().flat_map(with_all).collect()
    }

    /// Seal rule 2: a seal heard in this phase, which is 2i - 1 or later. What was accepted stays so.
    fn seal_accepts(&self, q: Controller, triple: Triple) -> bool {
        let k = self.phase;
        k >= triple.first_phase() && !self.sources(q, Letter::Seal, triple, k, k).is_empty()
    }

    fn turn_seals(&mut self) {
        let mut newly = self.pairs();
        newly.retain(|&(q, triple)| !self.accepted[&q].contains(&triple) && self.seal_accepts(q, triple));
        self.phase += 1;
        for (q, triple) in newly {
            self.accept(q, triple);
            self.send_to_all(q, Letter::Seal, triple);
        }
    }

    /// Echo rules 2 and 3.
    fn becomes_witness(&self, q: Controller, triple: Triple) -> bool {
        let k = self.phase;
        let init = k == triple.first_phase() && self.sources(q, Letter::Init, triple, k, k).contains(&triple.origin);
        let echoes = self.sources(q, Letter::Echo, triple, triple.second_phase(), k);
        init || echoes.len() >= usize::from(self.group.t() + 1)
    }

    /// Echo rule 5.
    fn echo_accepts(&self, q: Controller, triple: Triple) -> bool {
        let echoes = self.sources(q, Letter::Echo, triple, triple.second_phase(), self.phase);
        echoes.len() >= usize::from(self.group.n() - self.group.t())
    }

    fn turn_echoes(&mut self) {
        let mut witnesses = self.pairs();
        let mut newly = witnesses.clone();
        witnesses.retain(|&(q, triple)| !self.witnesses.contains(&(q, triple)) && self.becomes_witness(q, triple));
        newly.retain(|&(q, triple)| !self.accepted[&q].contains(&triple) && self.echo_accepts(q, triple));
        self.phase += 1;
        for (q, triple) in newly {
            self.accept(q, triple);
        }
        for (q, triple) in witnesses {
            self.witnesses.insert((q, triple));
            self.send_to_all(q, Letter::Echo, triple);
        }
    }

    fn accept(&mut self, q: Controller, triple: Triple) {
        self.accepted.entry(q).or_default().insert(triple);
    }
}
