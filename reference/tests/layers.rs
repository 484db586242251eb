//! The carriages and the bench: thresholds, extraction, and the faults that no campaign text reaches.

use reference::bench::{Bench, Moment, Verdict};
use reference::carriage::{Carriage, Frame, Letter, Style, Triple};
use reference::fault::Fault;
use reference::group::Group;
use reference::value::Value;

fn carriage(style: Style, n: u16, t: u16, marks: &[u16]) -> Carriage {
    let group = Group::new(n, t, marks.iter().copied().collect()).expect("a group");
    Carriage::new(style, group, 2).expect("a carriage")
}

fn list() -> Vec<Value> {
    vec![Value::Pulse { block: 5, pulses: 8 }, Value::Pulse { block: 6, pulses: 8 }]
}

fn bench(style: Style, n: u16, t: u16, marks: &[u16]) -> Bench {
    Bench::open(carriage(style, n, t, marks), &list()).expect("a bench")
}

fn frame(from: u16, to: u16, letter: Letter, triple: Triple) -> Frame {
    Frame { from, to, letter, triple }
}

/// Whether controller 0 is a witness and has accepted after it heard the echoes of so many marked and the
/// witnesses among the correct ones.
fn after_echoes(n: u16, t: u16, inits: u16, marked_echoes: u16) -> (bool, bool) {
    let marks: Vec<u16> = (n - t..n).collect();
    let mut carriage = carriage(Style::Echo, n, t, &marks);
    let triple = Triple::new(n - 1, 0, 1);
    for to in 1..=inits {
        assert_eq!(carriage.inject(frame(n - 1, to, Letter::Init, triple)), Ok(()));
    }
    assert_eq!(carriage.turn(), Ok(()));
    for &from in marks.iter().take(usize::from(marked_echoes)) {
        assert_eq!(carriage.inject(frame(from, 0, Letter::Echo, triple)), Ok(()));
    }
    assert_eq!(carriage.turn(), Ok(()));
    (carriage.witness(0, triple) == Ok(true), carriage.held(0, triple) == Ok(true))
}

#[test]
fn seven_and_two_take_three_and_five_echoes() {
    assert_eq!(after_echoes(7, 2, 0, 2), (false, false));
    assert_eq!(after_echoes(7, 2, 1, 1), (false, false));
    assert_eq!(after_echoes(7, 2, 1, 2), (true, false));
    assert_eq!(after_echoes(7, 2, 3, 0), (true, false));
    assert_eq!(after_echoes(7, 2, 2, 2), (true, false));
    assert_eq!(after_echoes(7, 2, 4, 0), (true, false));
    assert_eq!(after_echoes(7, 2, 3, 2), (true, true));
    assert_eq!(after_echoes(7, 2, 4, 1), (true, true));
}

#[test]
fn sixteen_and_five_take_six_and_eleven_echoes() {
    assert_eq!(after_echoes(16, 5, 0, 5), (false, false));
    assert_eq!(after_echoes(16, 5, 5, 0), (false, false));
    assert_eq!(after_echoes(16, 5, 1, 5), (true, false));
    assert_eq!(after_echoes(16, 5, 6, 0), (true, false));
    assert_eq!(after_echoes(16, 5, 5, 5), (true, false));
    assert_eq!(after_echoes(16, 5, 10, 0), (true, false));
    assert_eq!(after_echoes(16, 5, 6, 5), (true, true));
    assert_eq!(after_echoes(16, 5, 10, 1), (true, true));
}

#[test]
fn frames_without_effect() {
    let mut carriage = carriage(Style::Echo, 7, 2, &[5, 6]);
    let triple = Triple::new(5, 0, 2);
    for from in [5, 6] {
        assert_eq!(carriage.inject(frame(from, 0, Letter::Echo, triple)), Ok(()), "before phase 2i");
    }
    assert_eq!(carriage.inject(frame(5, 0, Letter::Init, triple)), Ok(()), "in another phase");
    assert_eq!(carriage.turn(), Ok(()));
    assert_eq!(carriage.turn(), Ok(()));
    assert_eq!(carriage.inject(frame(6, 0, Letter::Init, triple)), Ok(()), "from another");
    assert_eq!(carriage.inject(frame(5, 1, Letter::Init, triple)), Ok(()));
    assert_eq!(carriage.turn(), Ok(()));
    assert_eq!(carriage.witness(0, triple), Ok(false));
    assert_eq!(carriage.witness(1, triple), Ok(true));
    assert_eq!(carriage.inject(frame(5, 0, Letter::Echo, triple)), Ok(()));
    assert_eq!(carriage.turn(), Ok(()));
    assert_eq!(carriage.inject(frame(5, 0, Letter::Echo, triple)), Ok(()), "heard before");
    assert_eq!(carriage.turn(), Ok(()));
    assert_eq!(carriage.witness(0, triple), Ok(false), "two echoes");
    assert_eq!(carriage.inject(frame(6, 0, Letter::Echo, triple)), Ok(()));
    assert_eq!(carriage.turn(), Ok(()));
    assert_eq!(carriage.witness(0, triple), Ok(true), "three echoes, in three phases");
}

#[test]
fn an_early_seal_has_no_effect() {
    let mut carriage = carriage(Style::Seal, 4, 1, &[3]);
    let (early, late) = (Triple::new(3, 0, 2), Triple::new(3, 1, 1));
    assert_eq!(carriage.turn(), Ok(()));
    assert_eq!(carriage.inject(frame(3, 0, Letter::Seal, early)), Ok(()));
    assert_eq!(carriage.inject(frame(3, 0, Letter::Seal, late)), Ok(()));
    assert_eq!(carriage.turn(), Ok(()));
    assert_eq!(carriage.held(0, early), Ok(false));
    assert_eq!(carriage.held(0, late), Ok(true));
    assert_eq!(carriage.held(1, late), Ok(false));
    assert_eq!(carriage.turn(), Ok(()));
    assert_eq!(carriage.held(0, early), Ok(false));
    assert_eq!(carriage.held(1, late), Ok(true));
}

/// A shot of controller 5, which is marked as 6 is, with seals passed to controller 0 in phases.
fn round_two(seals: &[(u16, Triple)]) -> Bench {
    let mut bench = bench(Style::Seal, 7, 2, &[5, 6]);
    assert_eq!(bench.begin(&list(), 5, None), Ok(()));
    for phase in 1..=4 {
        for &(_, triple) in seals.iter().filter(|(at, _)| *at == phase) {
            assert_eq!(bench.inject(frame(6, 0, Letter::Seal, triple)), Ok(()));
        }
        assert_eq!(bench.turn(phase), Ok(()));
    }
    bench
}

#[test]
fn the_sender_alone_does_not_make_two_origins() {
    let (first, second) = (Triple::new(5, 0, 1), Triple::new(5, 0, 2));
    let bench = round_two(&[(3, first), (4, second)]);
    assert_eq!(bench.carriage().held(0, first), Ok(true));
    assert_eq!(bench.carriage().held(0, second), Ok(true));
    assert!(bench.extracted()[&0].is_empty());
}

#[test]
fn two_origins_without_the_senders_first_do_not_extract() {
    let (one, two) = (Triple::new(6, 0, 1), Triple::new(5, 0, 2));
    let bench = round_two(&[(3, one), (4, two)]);
    assert_eq!(bench.carriage().held(0, one), Ok(true));
    assert_eq!(bench.carriage().held(0, two), Ok(true));
    assert!(bench.extracted()[&0].is_empty());
}

#[test]
fn the_senders_first_and_another_origin_extract() {
    let mut bench = round_two(&[(4, Triple::new(5, 0, 1)), (4, Triple::new(6, 0, 2))]);
    assert_eq!(bench.extracted()[&0].iter().copied().collect::<Vec<_>>(), [0]);
    assert!(bench.extracted()[&1].is_empty());
    assert!(bench.carriage().offered().contains(&Triple::new(0, 0, 3)));
    assert_eq!(bench.turn(5), Ok(()));
    assert_eq!(bench.turn(6), Ok(()));
    for q in 0..5 {
        assert_eq!(bench.verdict(q), Ok(Verdict::At(0)));
    }
}

#[test]
fn faults_of_the_carriage() {
    let group = Group::new(4, 1, [3].into()).expect("a group");
    for length in [0, 5] {
        assert_eq!(Carriage::new(Style::Echo, group.clone(), length), Err(Fault::Length));
    }
    let mut carriage = carriage(Style::Echo, 4, 1, &[3]);
    assert_eq!(carriage.offer(Triple::new(4, 0, 1)), Err(Fault::Range));
    assert_eq!(carriage.offer(Triple::new(3, 0, 1)), Err(Fault::Offer));
    assert_eq!(carriage.offer(Triple::new(0, 0, 2)), Err(Fault::Offer));
    assert_eq!(carriage.held(3, Triple::new(9, 0, 1)), Err(Fault::NotCorrect));
    assert_eq!(carriage.held(0, Triple::new(9, 0, 1)), Err(Fault::Range));
    for _ in 1..=4 {
        assert_eq!(carriage.turn(), Ok(()));
    }
    assert_eq!(carriage.phase(), 5);
    let before = carriage.clone();
    assert_eq!(carriage.turn(), Err(Fault::Turn));
    assert_eq!(carriage, before);
}

#[test]
fn faults_of_opening_and_of_lists_handed_again() {
    let three = [list(), vec![Value::Pulse { block: 7, pulses: 1 }]].concat();
    let same = [list()[0], list()[0]];
    assert_eq!(Bench::open(carriage(Style::Seal, 4, 1, &[3]), &three), Err(Fault::Length));
    assert_eq!(Bench::open(carriage(Style::Seal, 4, 1, &[3]), &same), Err(Fault::Repeated));
    let mut bench = bench(Style::Seal, 1, 0, &[]);
    assert_eq!(bench.begin(&three, 9, None), Err(Fault::Length));
    assert_eq!(bench.verdict(0), Err(Fault::Moment));
    assert_eq!(bench.begin(&list(), 0, None), Ok(()));
    assert_eq!(bench.turn(1).and(bench.turn(2)), Ok(()));
    assert_eq!(bench.close(&three, 1), Err(Fault::Length));
    assert_eq!(bench.close(&three, 2), Err(Fault::Moment));
    assert_eq!(bench.verdict(1), Err(Fault::NotCorrect));
    assert_eq!(bench.tally(9, 64), Err(Fault::Block));
    assert_eq!(bench.tally(9, 63), Err(Fault::NotCorrect));
}

#[test]
fn no_shot_after_the_last_one() {
    let mut bench = bench(Style::Echo, 1, 0, &[]);
    for shot in 1..=999 {
        assert_eq!(bench.begin(&list(), 0, Some(&list()[1])), Ok(()));
        assert_eq!(bench.turn(1).and(bench.turn(2)), Ok(()));
        assert!(bench.close(&list(), shot).is_ok());
    }
    assert_eq!((bench.closed(), bench.moment()), (999, Moment::Idle));
    assert_eq!(bench.begin(&list(), 9, None), Err(Fault::Shots));
    assert_eq!((bench.tally(0, 5), bench.tally(0, 6)), (Ok(0), Ok(3)));
}
