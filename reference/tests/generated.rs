//! Generated campaigns reach what they are made for, and keep the laws.

use reference::generator::generate;
use reference::report::{campaign, run, Event};
use reference::statistics::Statistics;

const SEEDS: u64 = 400;

#[test]
fn the_same_seed_gives_the_same_text() {
    assert_eq!(generate(7), generate(7));
    assert_ne!(generate(7), generate(8));
}

#[test]
fn everything_occurs() {
    let mut statistics = Statistics::default();
    for seed in 0..SEEDS {
        let text = generate(seed);
        statistics.add(&text, &campaign(&text));
    }
    assert_eq!(statistics.campaigns, SEEDS as usize);
    for count in [
        statistics.shots_closed,
        statistics.sender_faulty,
        statistics.marked_agreed,
        statistics.retired_blocks,
        statistics.header_faults,
        statistics.refusals,
    ] {
        assert!(count > 10, "{statistics}");
    }
    let numbers = [1, 2, 3, 4, 5, 6, 8, 9, 10, 11, 12, 14, 15, 16, 17, 18];
    let found: Vec<u8> = statistics.refusals_by_number.keys().copied().collect();
    assert_eq!(found, numbers, "{statistics}");
}

#[test]
fn all_correct_controllers_agree() {
    for seed in 0..SEEDS {
        let Ok(record) = run(&generate(seed)) else {
            continue;
        };
        for event in &record.events {
            if let Event::Shot(closed) = event {
                let first = closed.verdicts.values().next();
                assert!(closed.verdicts.values().all(|verdict| Some(verdict) == first), "seed {seed}: {closed:?}");
            }
        }
    }
}

#[test]
fn a_report_counts_every_line_among_the_acts() {
    for seed in 0..SEEDS {
        let text = generate(seed);
        let Ok(record) = run(&text) else {
            continue;
        };
        let refused = record.events.iter().filter(|event| matches!(event, Event::Refused(_))).count();
        assert_eq!(refused, record.refused, "seed {seed}");
        let read = &text[..text.len().min(32_768)];
        let lines = read.split_inclusive(|&byte| byte == b'\n').count();
        let header = 7 + read.split(|&byte| byte == b'\n').nth(6).map_or(0, |line| usize::from(line[7] - b'0'));
        assert_eq!(record.taken + record.refused, lines - header, "seed {seed}");
    }
}
