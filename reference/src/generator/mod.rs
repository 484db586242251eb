//! Campaign texts from seeds: the same seed, the same text.

mod damage;
mod faulty;
mod plan;
mod random;
mod shots;

use crate::report::MOST_BYTES;
use plan::Plan;
use random::Random;

#[derive(Clone, Copy, Debug, PartialEq, Eq)]
pub enum Sort {
    Clean,
    Adversarial,
    FaultyActs,
    FaultyHeader,
    Damaged,
    Long,
}

/// The text of the campaign of this seed.
pub fn generate(seed: u64) -> Vec<u8> {
    let mut random = Random::new(seed);
    let sort = match random.below(40) {
        0..=5 => Sort::Clean,
        6..=19 => Sort::Adversarial,
        20..=27 => Sort::FaultyActs,
        28..=32 => Sort::FaultyHeader,
        33..=38 => Sort::Damaged,
        _ => Sort::Long,
    };
    of_sort(&mut random, sort)
}

fn of_sort(random: &mut Random, sort: Sort) -> Vec<u8> {
    match sort {
        Sort::Clean => {
            let plan = Plan::any(random);
            let shots = how_many(random);
            text_of(plan.header(), clean_acts(random, &plan, shots))
        }
        Sort::Adversarial => {
            let plan = Plan::with_marked(random);
            let shots = random.below(9) + 1;
            text_of(plan.header(), adversarial_acts(random, &plan, shots))
        }
        Sort::FaultyActs => {
            let plan = Plan::any(random);
            let shots = random.below(6);
            let acts = mixed_acts(random, &plan, shots);
            text_of(plan.header(), faulty::among(random, &plan, acts))
        }
        Sort::FaultyHeader => {
            let plan = Plan::any(random);
            let acts = clean_acts(random, &plan, 1);
            let header = faulty::header(random, &plan);
            let mut text = text_of(header, acts);
            if random.once_in(8) {
                text.truncate(random.below(100));
            }
            text
        }
        Sort::Damaged => {
            let other = random.pick(&[Sort::Clean, Sort::Adversarial, Sort::FaultyActs, Sort::FaultyHeader]);
            let mut text = of_sort(random, other);
            damage::damage(random, &mut text);
            text
        }
        Sort::Long => long(random),
    }
}

/// Mostly a few shots, now and then many.
fn how_many(random: &mut Random) -> usize {
    match random.below(8) {
        0 => 0,
        1 => random.below(60),
        _ => random.below(12) + 1,
    }
}

fn clean_acts(random: &mut Random, plan: &Plan, shots: usize) -> Vec<String> {
    let mut acts = Vec::new();
    for shot in 1..=shots as u16 {
        acts.extend(shots::clean(random, plan, shot));
    }
    acts
}

/// As many shots as fit into what is read.
fn adversarial_acts(random: &mut Random, plan: &Plan, shots: usize) -> Vec<String> {
    let mut acts = Vec::new();
    let mut bytes = 200;
    for shot in 1..=shots as u16 {
        let lines = shots::adversarial(random, plan, shot);
        bytes += lines.iter().map(|line| line.len() + 1).sum::<usize>();
        if bytes > MOST_BYTES {
            break;
        }
        acts.extend(lines);
    }
    acts
}

fn mixed_acts(random: &mut Random, plan: &Plan, shots: usize) -> Vec<String> {
    if plan.marked.is_empty() || random.once_in(2) {
        return clean_acts(random, plan, shots);
    }
    adversarial_acts(random, plan, shots)
}

/// Texts about as long as what is read, or longer.
fn long(random: &mut Random) -> Vec<u8> {
    let small = random.once_in(3);
    let plan = if small { Plan::of_size(random, 1, 0) } else { Plan::any(random) };
    match random.below(10) {
        0..=4 => {
            let shots = random.below(5);
            let mut text = text_of(plan.header(), mixed_acts(random, &plan, shots));
            let more = text_of(Vec::new(), clean_acts(random, &plan, 2));
            damage::fill_to_end(random, &mut text, &more);
            text
        }
        5 => {
            let mut text = text_of(plan.header(), Vec::new());
            text.resize(MOST_BYTES + random.below(3) - 1, b'\n');
            text
        }
        _ => {
            let acts = clean_acts(random, &plan, 1000);
            let mut text = text_of(plan.header(), acts);
            text.truncate(MOST_BYTES + random.below(4000));
            text
        }
    }
}

fn text_of(header: Vec<String>, acts: Vec<String>) -> Vec<u8> {
    let mut text = Vec::new();
    for line in header.into_iter().chain(acts) {
        text.extend_from_slice(line.as_bytes());
        text.push(b'\n');
    }
    text
}
