//! 02 R-1, rebuilding: a capture whose messages the writer made anew is judged
//! as before and differs in padding alone.

mod common;

use common::*;
use second::capture::{listing, payloads, Capture};
use second::kinds::CLOSE;
use second::maker::{make, MIXES};
use second::rebuild::rebuild;
use second::table::Table;

/// The four sorts of padding of 000 that a message of 01 can have.
#[derive(Clone, Copy, Debug)]
enum Sort {
    Configuration,
    Interface,
    Pipe,
    Result,
}

fn word(message: &[u8], at: usize) -> usize {
    u32::from_le_bytes([
        message[at],
        message[at + 1],
        message[at + 2],
        message[at + 3],
    ]) as usize
}

fn interface_padding(message: &[u8], start: usize, out: &mut Vec<(usize, Sort)>) -> usize {
    out.extend([(start + 6, Sort::Interface), (start + 7, Sort::Interface)]);
    let pipes = word(message, start + 8);
    for pipe in 0..pipes {
        let at = start + 12 + 12 * pipe;
        out.extend([(at + 2, Sort::Pipe), (at + 3, Sort::Pipe)]);
    }
    start + 12 + 12 * pipes
}

/// Where the padding of a message of this kind is, by the layouts of 000.
fn padding(kind: u8, message: &[u8]) -> Vec<(usize, Sort)> {
    let mut out = Vec::new();
    match kind {
        // The TsUrb starts at 16.
        10 if message[18..20] == [0, 0] => {
            out.extend((25..28).map(|at| (at, Sort::Configuration)));
            let mut at = 32;
            for _ in 0..word(message, 28) {
                at = interface_padding(message, at, &mut out);
            }
        }
        10 if message[18..20] == [1, 0] => {
            interface_padding(message, 28, &mut out);
        }
        // The result starts at 20.
        16 | 17 => out.extend([(22, Sort::Result), (23, Sort::Result)]),
        _ => {}
    }
    out
}

/// Counts the padding bytes that were not zero, by sort, in messages accepted
/// and in those refused after check 8.
fn compare(before: &[u8], after: &[u8]) -> [[usize; 4]; 2] {
    let (old, new) = (Capture::read(before), Capture::read(after));
    assert_eq!(before.len(), after.len());
    assert_eq!(old.records.len(), new.records.len());
    assert_eq!(old.cut, new.cut);
    let mut table = Table::open(1);
    let mut cleared = [[0; 4]; 2];
    for (old, new) in old.records.iter().zip(&new.records) {
        assert_eq!(
            (old.channel, old.side, old.stamp, old.message.len()),
            (new.channel, new.side, new.stamp, new.message.len())
        );
        let mut wanted = old.message.to_vec();
        let entry = if old.side == CLOSE {
            table.close(old.channel, old.stamp);
            None
        } else {
            table.judge(old.channel, old.side, old.stamp, old.message)
        };
        if let Some(entry) = entry.filter(|entry| entry.answer == 0 || entry.answer >= 9) {
            for (at, sort) in padding(entry.kind, old.message) {
                let late = usize::from(entry.answer != 0);
                cleared[late][sort as usize] += usize::from(wanted[at] != 0);
                wanted[at] = 0;
            }
        }
        assert_eq!(wanted, new.message);
    }
    cleared
}

#[test]
fn only_padding_differs_and_the_judging_is_the_same() {
    for seed in 0..48 {
        let before = make(seed, 2500);
        let after = rebuild(&before).expect("every message made anew");
        let cleared = compare(&before, &after);
        for sort in [
            Sort::Configuration,
            Sort::Interface,
            Sort::Pipe,
            Sort::Result,
        ] {
            assert!(cleared[0][sort as usize] > 0, "seed {seed} {sort:?}");
        }
        assert_eq!(listing(&before, 1), listing(&after, 1));
        assert_eq!(payloads(&before), payloads(&after));
        assert_eq!(rebuild(&after).as_ref(), Ok(&after));
    }
}

/// So that rebuilding the committed captures (`made`) is a test of it: each
/// mix alone has padding of each sort in accepted messages, and all of them
/// together in messages refused by 9 to 14.
#[test]
fn made_captures_have_padding_that_is_not_zero() {
    let mut late = [0; 4];
    for seed in 0..MIXES.len() as u64 {
        let before = make(seed, 2000);
        let after = rebuild(&before).expect("every message made anew");
        let [accepted, refused] = compare(&before, &after);
        assert!(accepted.iter().all(|count| *count >= 3), "seed {seed}");
        for (sum, count) in late.iter_mut().zip(refused) {
            *sum += count;
        }
    }
    assert!(late.iter().all(|count| *count > 0));
}

#[test]
fn what_is_not_judged_or_refused_early_stays_as_it_came() {
    assert_eq!(rebuild(&[]), Ok(Vec::new()));
    let cut = make(15, 50);
    assert!(Capture::read(&cut).short);
    for length in 0..400 {
        let piece = &cut[..length];
        let after = rebuild(piece).expect("every message made anew");
        compare(piece, &after);
    }
    // On a new table nothing of this passes check 6, padding or not.
    let mut bytes = vec![0, 1, 36, 0, 0, 0, 0, 0, 0, 0, 0, 0];
    bytes.extend(hex(C1));
    assert_eq!(rebuild(&bytes).as_ref(), Ok(&bytes));
}
