//! The acts of whole shots: clean ones, and those in which marked controllers send frames.

use super::plan::Plan;
use super::random::Random;
use crate::carriage::{Frame, Letter, Phase, Style, Triple};
use crate::group::Controller;
use std::collections::BTreeMap;

/// The lines of one shot, from begin to close.
pub type Lines = Vec<String>;

/// Frames by the phase in which they are injected.
type Schedule = BTreeMap<Phase, Vec<Frame>>;

pub fn written(frame: &Frame) -> String {
    let letter = match frame.letter {
        Letter::Init => 'i',
        Letter::Echo => 'e',
        Letter::Seal => 's',
    };
    let Triple { origin, place, round } = frame.triple;
    format!("inject={},{},{letter},{origin},{round},{place}", frame.from, frame.to)
}

pub fn clean(random: &mut Random, plan: &Plan, shot: u16) -> Lines {
    let sender = random.pick(&plan.correct);
    let begin = begin_of_correct(random, plan, sender);
    assemble(plan, shot, begin, &Schedule::new())
}

fn begin_of_correct(random: &mut Random, plan: &Plan, sender: Controller) -> String {
    if random.once_in(6) {
        return format!("begin={sender},-");
    }
    format!("begin={sender},{}", plan.said(random))
}

fn assemble(plan: &Plan, shot: u16, begin: String, schedule: &Schedule) -> Lines {
    let mut lines = vec![begin];
    for phase in 1..=plan.last_phase() {
        lines.extend(schedule.get(&phase).into_iter().flatten().map(written));
        lines.push(format!("turn={phase}"));
    }
    lines.push(format!("close={shot}"));
    lines
}

/// A shot in which marked controllers send; the plan has one at least.
pub fn adversarial(random: &mut Random, plan: &Plan, shot: u16) -> Lines {
    let marked_sends = !random.once_in(4);
    let sender = random.pick(if marked_sends { &plan.marked } else { &plan.correct });
    let begin = if marked_sends { format!("begin={sender},-") } else { begin_of_correct(random, plan, sender) };
    let mut scheme = Scheme { plan, sender, schedule: Schedule::new() };
    match plan.style {
        Style::Seal => scheme.seals(random),
        Style::Echo if marked_sends && random.once_in(2) => scheme.edge(random),
        Style::Echo => scheme.echoes(random),
    }
    if !random.once_in(3) {
        scheme.noise(random);
    }
    for frames in scheme.schedule.values_mut() {
        random.shuffle(frames);
    }
    assemble(plan, shot, begin, &scheme.schedule)
}

/// What marked controllers do in one shot.
struct Scheme<'a> {
    plan: &'a Plan,
    sender: Controller,
    schedule: Schedule,
}

/// When the frames of a triple are sent, and from whom its i-frame comes.
struct Timing {
    inits: Vec<Phase>,
    echo: Phase,
    from: Controller,
}

impl Timing {
    fn right(triple: Triple) -> Timing {
        Timing { inits: vec![2 * triple.round - 1], echo: 2 * triple.round, from: triple.origin }
    }

    fn put_off(&mut self, random: &mut Random, marked: &[Controller]) {
        match random.below(6) {
            0 => self.inits[0] += 1,
            1 => self.inits[0] -= 1,
            2 => self.inits.push(self.inits[0] - 1),
            3 => self.echo += 1,
            4 => self.echo -= 1,
            _ => self.from = random.pick(marked),
        }
    }
}

impl Scheme<'_> {
    fn inject(&mut self, phase: Phase, from: Controller, to: &[Controller], letter: Letter, triple: Triple) {
        if !self.plan.marked.contains(&from) {
            return;
        }
        let frames = self.schedule.entry(phase).or_default();
        frames.extend(to.iter().map(|&to| Frame { from, to, letter, triple }));
    }

    /// Correct controllers: all, one, about a threshold, or any number of them.
    fn audience(&self, random: &mut Random) -> Vec<Controller> {
        let all = self.plan.correct.len();
        let t = usize::from(self.plan.t);
        let count = match random.below(6) {
            0 | 1 => all,
            2 => 1,
            3 => (t + 1).saturating_sub(random.below(self.plan.marked.len() + 1)),
            4 => all.saturating_sub(random.below(t + 1)),
            _ => random.below(all + 1),
        };
        random.some_of(&self.plan.correct, count)
    }

    fn any_phase(&self, random: &mut Random, first: Phase) -> Phase {
        random.between(first.min(self.plan.last_phase()), self.plan.last_phase())
    }

    fn any_places(&self, random: &mut Random) -> Vec<u16> {
        let places: Vec<u16> = (0..self.plan.list.len() as u16).collect();
        let count = if random.once_in(3) { random.below(places.len()) + 1 } else { 1 };
        random.some_of(&places, count)
    }

    /// Marked origins that vouch one after the other, the sender first.
    fn chain(&self, random: &mut Random, place: u16) -> Vec<Triple> {
        let others: Vec<Controller> =
            self.plan.marked.iter().copied().filter(|&marked| marked != self.sender).collect();
        let most = others.len().min(usize::from(self.plan.t));
        let more = if random.once_in(2) { most } else { random.below(most + 1) };
        let mut origins = vec![self.sender];
        origins.extend(random.some_of(&others, more));
        let rounds = 1..;
        origins.into_iter().zip(rounds).map(|(origin, round)| Triple::new(origin, place, round)).collect()
    }

    /// Seals of marked origins, passed early, in time or late, to some; now and then others to other controllers.
    fn seals(&mut self, random: &mut Random) {
        for place in self.any_places(random) {
            let chain = self.chain(random, place);
            let round = chain.len() as u16;
            let release = match random.below(4) {
                0 => 1,
                1 => 2 * round,
                2 => 2 * round - 1,
                _ => self.any_phase(random, 1),
            };
            let audience = self.audience(random);
            for triple in chain {
                let phase = if random.once_in(5) { self.any_phase(random, 1) } else { release };
                let from = random.pick(&self.plan.marked);
                let to = if random.once_in(4) { self.audience(random) } else { audience.clone() };
                self.inject(phase, from, &to, Letter::Seal, triple);
            }
        }
    }

    /// The i-frames of the sender, another place to each part of the group, and waves of e-frames.
    fn echoes(&mut self, random: &mut Random) {
        let places = self.any_places(random);
        let mut listeners = self.audience(random);
        for &place in &places {
            let part = if random.once_in(2) { listeners.len() } else { random.below(listeners.len() + 1) };
            let to: Vec<Controller> = listeners.iter().copied().take(part).collect();
            if !random.once_in(3) {
                listeners.drain(..part);
            }
            self.inject(1, self.sender, &to, Letter::Init, Triple::new(self.sender, place, 1));
        }
        for place in places {
            let late = random.once_in(2);
            for triple in self.chain(random, place) {
                self.support(random, triple, late);
            }
        }
    }

    /// Just enough frames for a place of the sender's, or one frame off: too early, too late, or from another.
    fn edge(&mut self, random: &mut Random) {
        let place = random.below(self.plan.list.len()) as u16;
        let chain = self.chain(random, place);
        let off = random.below(2 * chain.len());
        let (n, t, m) = (usize::from(self.plan.n), usize::from(self.plan.t), self.plan.marked.len());
        for (index, triple) in chain.into_iter().enumerate() {
            let listeners = random.pick(&[t + 1 - m, n - t - m, n - m]);
            let to = random.some_of(&self.plan.correct, listeners);
            let mut timing = Timing::right(triple);
            if index == off {
                timing.put_off(random, &self.plan.marked);
            }
            let last = self.plan.last_phase();
            for init in timing.inits {
                self.inject(init.clamp(1, last), timing.from, &to, Letter::Init, triple);
            }
            for from in self.plan.marked.clone() {
                self.inject(timing.echo.clamp(1, last), from, &self.plan.correct, Letter::Echo, triple);
            }
        }
    }

    /// The i-frame of a later round, and a wave or two of e-frames.
    fn support(&mut self, random: &mut Random, triple: Triple, late: bool) {
        if triple.round > 1 {
            let to = self.audience(random);
            self.inject(2 * triple.round - 1, triple.origin, &to, Letter::Init, triple);
        }
        for _ in 0..random.below(3) {
            let first = 2 * triple.round;
            let phase = if late { self.any_phase(random, first) } else { first };
            let to = self.audience(random);
            let count = if random.once_in(3) { random.below(self.plan.marked.len()) + 1 } else { usize::MAX };
            for from in random.some_of(&self.plan.marked, count) {
                self.inject(phase, from, &to, Letter::Echo, triple);
            }
        }
    }

    /// Frames of any marked controller with any triple in any phase.
    fn noise(&mut self, random: &mut Random) {
        for _ in 0..random.below(8) {
            let origins = if random.once_in(4) { &self.plan.correct } else { &self.plan.marked };
            let place = random.below(self.plan.list.len()) as u16;
            let triple = Triple::new(random.pick(origins), place, random.between(1, self.plan.t + 1));
            let letter = match self.plan.style {
                Style::Seal => Letter::Seal,
                Style::Echo => random.pick(&[Letter::Init, Letter::Echo]),
            };
            let to = if random.once_in(3) { self.audience(random) } else { vec![random.pick(&self.plan.correct)] };
            let from = random.pick(&self.plan.marked);
            let phase = self.any_phase(random, 1);
            self.inject(phase, from, &to, letter, triple);
        }
    }
}
