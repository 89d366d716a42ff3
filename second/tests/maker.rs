//! The captures themselves: made again alike, and reaching what they are for.

use second::capture::{listing, payloads, Capture};
use second::maker::{make, MIXES};
use second::situations::Situation;
use second::tally::{Tally, POSSIBLE};

#[test]
fn a_capture_is_a_function_of_its_numbers() {
    for seed in [0, 3, 15, u64::MAX] {
        assert_eq!(make(seed, 300), make(seed, 300));
    }
    assert_ne!(make(0, 300), make(8, 300));
    let short = make(5, 100);
    assert_eq!(short, make(5, 200)[..short.len()]);
}

#[test]
fn a_capture_has_as_many_records_as_asked_for() {
    for seed in 0..16 {
        let bytes = make(seed, 500);
        let capture = Capture::read(&bytes);
        assert_eq!(capture.records.len(), 500);
        assert_eq!(capture.short, seed == 15);
        let last = |text: String| text.lines().last().map(str::to_string);
        let wanted = if seed == 15 { "end short" } else { "end 500" };
        assert_eq!(last(listing(&bytes, 1)).as_deref(), Some(wanted));
        assert_eq!(last(payloads(&bytes)).as_deref(), Some(wanted));
    }
}

#[test]
fn every_mix_reaches_every_answer() {
    for seed in 0..MIXES.len() as u64 {
        let bytes = make(seed, 20_000);
        assert!(bytes.len() < 4_000_000);
        let tally = Tally::of(&bytes);
        assert!(3 * tally.answer(0) >= tally.calls, "seed {seed}");
        for answer in [0, 2, 3, 5, 6, 7, 8, 9, 10, 11, 12, 13, 14] {
            assert!(
                100 * tally.answer(answer) >= tally.calls,
                "seed {seed} answer {answer}"
            );
        }
        assert!(100 * tally.padded >= tally.calls, "seed {seed} padding");
        for kind in 1..=18 {
            assert!(tally.pairs[kind][0] > 0, "seed {seed} kind {kind}");
        }
    }
}

#[test]
fn together_the_mixes_reach_every_possible_pair_and_no_other() {
    let mut seen = [[0u64; 15]; 19];
    for seed in 0..MIXES.len() as u64 {
        let tally = Tally::of(&make(seed, 10_000));
        for (kind, row) in tally.pairs.iter().enumerate() {
            for (answer, count) in row.iter().enumerate() {
                seen[kind][answer] += count;
            }
        }
    }
    for (kind, row) in seen.iter().enumerate() {
        for (answer, count) in row.iter().enumerate() {
            let possible = POSSIBLE[kind].1.contains(&(answer as u8));
            assert_eq!(*count > 0, possible, "kind {kind} answer {answer}");
        }
    }
}

/// 02 R-2.
#[test]
fn every_mix_reaches_every_situation_of_cancelled_requests() {
    for seed in 0..MIXES.len() as u64 {
        let tally = Tally::of(&make(seed, 20_000));
        for situation in Situation::all() {
            let count = tally.situations.count(situation);
            assert!(count >= 5, "seed {seed}: {count} {situation}");
        }
    }
}

/// 02 R-2.
#[test]
fn together_short_captures_reach_every_situation_of_cancelled_requests() {
    let mixes = MIXES.len() as u64;
    for (first, calls) in [(0, 2_000), (mixes, 1_000)] {
        let captures = (first..first + mixes).map(|seed| make(seed, calls));
        let tallies: Vec<Tally> = captures.map(|bytes| Tally::of(&bytes)).collect();
        for situation in Situation::all() {
            let counts = tallies
                .iter()
                .map(|tally| tally.situations.count(situation));
            let count: u64 = counts.sum();
            assert!(count >= 3, "{calls} calls: {count} {situation}");
        }
    }
}
