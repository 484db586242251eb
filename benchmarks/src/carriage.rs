//! The two carriages over masks: one cell for each triple, a bit for each controller.

pub const ROUNDS: usize = 6;
pub const PLACES: usize = 4;
pub const ORIGINS: usize = 16;
const SLOTS: usize = ORIGINS * PLACES * ROUNDS;

#[derive(Clone, Copy)]
pub struct Group {
    pub n: u16,
    pub t: u16,
    pub marks: u16,
}

impl Group {
    pub fn correct(&self) -> u16 {
        (((1u32 << self.n) - 1) as u16) & !self.marks
    }

    pub fn is_correct(&self, q: u16) -> bool {
        q < self.n && self.marks >> q & 1 == 0
    }

    pub fn is_marked(&self, q: u16) -> bool {
        q < self.n && self.marks >> q & 1 == 1
    }
}

#[derive(Clone, Copy)]
pub struct Triple {
    pub origin: u16,
    pub place: u16,
    pub round: u16,
}

impl Triple {
    fn slot(self) -> usize {
        self.origin as usize + ORIGINS * (self.place as usize + PLACES * (self.round as usize - 1))
    }
}

#[derive(Clone, Copy)]
pub struct Frame {
    pub from: u16,
    pub to: u16,
    pub letter: u8,
    pub triple: Triple,
}

pub trait Carriage {
    fn group(&self) -> Group;
    fn phase(&self) -> u16;
    fn places(&self) -> u16;
    fn start(&mut self);
    fn offer(&mut self, x: Triple);
    /// A number of the fault table, or none.
    fn inject(&mut self, f: Frame) -> Option<u16>;
    fn turn(&mut self);
    /// The controllers that have accepted the triple.
    fn accepted(&self, x: Triple) -> u16;
}

fn in_range(group: &Group, places: u16, x: Triple) -> bool {
    x.origin < group.n && x.place < places && x.round >= 1 && x.round <= group.t + 1
}

fn check_frame(group: &Group, places: u16, f: Frame, letters: &[u8]) -> Option<u16> {
    if !group.is_marked(f.from) {
        Some(14)
    } else if !group.is_correct(f.to) {
        Some(15)
    } else if !letters.contains(&f.letter) {
        Some(16)
    } else if !in_range(group, places, f.triple) {
        Some(17)
    } else {
        None
    }
}

#[derive(Clone, Copy, Default)]
struct EchoCell {
    offered: bool,
    told: u16,
    witness: u16,
    accepted: u16,
}

pub struct Echo {
    group: Group,
    places: u16,
    phase: u16,
    cells: [EchoCell; SLOTS],
    echoes: [[u16; ORIGINS]; SLOTS],
}

impl Echo {
    pub fn new(group: Group, places: u16) -> Echo {
        Echo { group, places, phase: 1, cells: [EchoCell::default(); SLOTS], echoes: [[0; ORIGINS]; SLOTS] }
    }

    fn turn_cell(&mut self, slot: usize, first: bool) {
        let Group { n, t, .. } = self.group;
        let correct = self.group.correct();
        let cell = self.cells[slot];
        let (mut witness, mut accepted) = (0, 0);
        if first {
            witness = if cell.offered { correct } else { cell.told };
        } else {
            let row = &self.echoes[slot];
            for q in 0..n {
                if correct >> q & 1 == 1 {
                    let heard = (cell.witness | row[q as usize]).count_ones() as u16;
                    witness |= u16::from(heard > t) << q;
                    accepted |= u16::from(heard >= n - t) << q;
                }
            }
        }
        self.cells[slot].witness |= witness;
        self.cells[slot].accepted |= accepted;
    }
}

impl Carriage for Echo {
    fn group(&self) -> Group {
        self.group
    }

    fn phase(&self) -> u16 {
        self.phase
    }

    fn places(&self) -> u16 {
        self.places
    }

    fn start(&mut self) {
        self.cells = [EchoCell::default(); SLOTS];
        self.echoes = [[0; ORIGINS]; SLOTS];
        self.phase = 1;
    }

    fn offer(&mut self, x: Triple) {
        self.cells[x.slot()].offered = true;
    }

    fn inject(&mut self, f: Frame) -> Option<u16> {
        let fault = check_frame(&self.group, self.places, f, b"ie");
        if fault.is_none() {
            let slot = f.triple.slot();
            if f.letter == b'i' && f.from == f.triple.origin && self.phase + 1 == 2 * f.triple.round {
                self.cells[slot].told |= 1 << f.to;
            } else if f.letter == b'e' && self.phase >= 2 * f.triple.round {
                self.echoes[slot][f.to as usize] |= 1 << f.from;
            }
        }
        fault
    }

    fn turn(&mut self) {
        let last = self.phase.div_ceil(2).min(self.group.t + 1);
        for round in 1..=last {
            for place in 0..self.places {
                for origin in 0..self.group.n {
                    let slot = Triple { origin, place, round }.slot();
                    self.turn_cell(slot, self.phase + 1 == 2 * round);
                }
            }
        }
        self.phase += 1;
    }

    fn accepted(&self, x: Triple) -> u16 {
        self.cells[x.slot()].accepted
    }
}

#[derive(Clone, Copy, Default)]
struct SealCell {
    offered: bool,
    accepted: u16,
    fresh: u16,
    told: u16,
}

pub struct Seal {
    group: Group,
    places: u16,
    phase: u16,
    cells: [SealCell; SLOTS],
}

impl Seal {
    pub fn new(group: Group, places: u16) -> Seal {
        Seal { group, places, phase: 1, cells: [SealCell::default(); SLOTS] }
    }
}

impl Carriage for Seal {
    fn group(&self) -> Group {
        self.group
    }

    fn phase(&self) -> u16 {
        self.phase
    }

    fn places(&self) -> u16 {
        self.places
    }

    fn start(&mut self) {
        self.cells = [SealCell::default(); SLOTS];
        self.phase = 1;
    }

    fn offer(&mut self, x: Triple) {
        self.cells[x.slot()].offered = true;
    }

    fn inject(&mut self, f: Frame) -> Option<u16> {
        if let Some(fault) = check_frame(&self.group, self.places, f, b"s") {
            return Some(fault);
        }
        let cell = &mut self.cells[f.triple.slot()];
        if self.group.is_correct(f.triple.origin) && !cell.offered {
            return Some(18);
        }
        cell.told |= 1 << f.to;
        None
    }

    fn turn(&mut self) {
        let correct = self.group.correct();
        for (slot, cell) in self.cells.iter_mut().enumerate() {
            let round = (slot / (ORIGINS * PLACES)) as u16 + 1;
            let mut takers = 0;
            if 2 * round <= self.phase + 1 {
                let by_all = cell.offered && 2 * round == self.phase + 1 || cell.fresh != 0;
                takers = if by_all { correct } else { cell.told };
            }
            cell.fresh = takers & !cell.accepted;
            cell.accepted |= takers;
            cell.told = 0;
        }
        self.phase += 1;
    }

    fn accepted(&self, x: Triple) -> u16 {
        self.cells[x.slot()].accepted
    }
}
