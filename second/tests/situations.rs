//! What `tally` counts of 02 R-2, on calls counted by hand.

mod common;

use common::*;
use second::capture::Record;
use second::situations::{End, Message, Situation};
use second::tally::Tally;

fn capture(calls: &[(u8, Vec<u8>)]) -> Vec<u8> {
    let setup: [(u8, Vec<u8>); 6] = [
        (1, hex(CAPABILITY_REQUEST)),
        (2, hex(CAPABILITY_RESPONSE)),
        (1, hex(SERVER_CREATED)),
        (2, hex(CLIENT_CREATED)),
        (2, add_device(0)),
        (1, hex(REGISTER_5)),
    ];
    let mut out = Vec::new();
    for (side, message) in setup.iter().chain(calls) {
        let record = Record {
            channel: 0,
            side: *side,
            stamp: 0,
            message,
        };
        record.write(&mut out);
    }
    out
}

fn counted(calls: &[(u8, Vec<u8>)]) -> Vec<(Situation, u64)> {
    let tally = Tally::of(&capture(calls));
    let all = Situation::all().into_iter();
    all.map(|situation| (situation, tally.situations.count(situation)))
        .filter(|(_, count)| *count > 0)
        .collect()
}

#[test]
fn a_cancelled_request_and_its_late_completion() {
    use Situation::*;
    let done = io_done(7, 0, 0, &[]);
    let calls = [
        (1, cancel(7)),
        (1, io(7, 4)),
        (1, cancel(7)),
        (1, cancel(7)),
        (1, cancel(7)),
        (1, cancel(7)),
        (1, bulk_in(7, 4)),
        (2, urb_done_plain(7, 0)),
        (2, urb_done(7, &[])),
        (2, io_done(7, 0, 1, &[])),
        (2, done.clone()),
        (2, done.clone()),
        (1, cancel(7)),
        (1, bulk_out(7, &[])),
        (2, urb_done_plain(7, 0)),
    ];
    let wanted = [
        (FirstCancel(8), 1),
        (SecondCancel, 1),
        (LaterCancel, 2),
        (CancelNotOpen, 2),
        (
            LateAccepted {
                completion: 15,
                request: 8,
            },
            1,
        ),
        (
            LateRefused {
                completion: 15,
                answer: 14,
            },
            1,
        ),
        (
            LateRefused {
                completion: 16,
                answer: 8,
            },
            1,
        ),
        (
            LateRefused {
                completion: 17,
                answer: 12,
            },
            1,
        ),
        (AcceptedAfter { answer: 8 }, 1),
        (AcceptedAfter { answer: 12 }, 1),
        (AcceptedAfter { answer: 14 }, 1),
        (CompletionBehindLate(15), 1),
        (CancelBehindLate, 1),
        (IdInUse(10), 1),
        (OpenedAgain(11), 1),
        (AgainCompleted, 1),
    ];
    assert_eq!(counted(&calls), wanted);
}

#[test]
fn full_rows_and_what_ends_them() {
    use Situation::*;
    let mut calls: Vec<(u8, Vec<u8>)> = (0..16).map(|id| (1, io(id, 4))).collect();
    calls.push((1, io(16, 4)));
    calls.push((1, cancel(0)));
    calls.push((1, io(16, 4)));
    calls.extend((1..16).map(|id| (1, cancel(id))));
    calls.push((1, io(16, 4)));
    calls.push((1, io(3, 4)));
    calls.push((2, io_done(3, 0, 0, &[])));
    calls.push((1, io(16, 4)));
    calls.push((1, hex(RETRACT)));
    calls.push((2, io_done(5, 0, 0, &[])));
    calls.push((2, io_done(16, 0, 0, &[])));
    calls.push((1, cancel(5)));
    let wanted = [
        (FirstCancel(8), 16),
        (
            LateAccepted {
                completion: 15,
                request: 8,
            },
            1,
        ),
        (IdInUse(8), 1),
        (FullSome, 1),
        (FullAll, 1),
        (FullIdInUse, 1),
        (RoomAgain, 1),
        (EndSome(End::Retract), 1),
        (Behind(End::Retract, Message::Completion), 1),
        (Behind(End::Retract, Message::Cancel), 1),
    ];
    assert_eq!(counted(&calls), wanted);
}

#[test]
fn every_situation_has_a_line_of_its_own() {
    let text = Tally::of(&[]).print();
    for situation in Situation::all() {
        let line = format!("     0  {situation}");
        assert_eq!(text.lines().filter(|found| *found == line).count(), 1);
    }
}
