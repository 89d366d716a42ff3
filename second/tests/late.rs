//! 02 R-2, late completions after a cancel, sentence by sentence, and what of 01
//! follows the new rows.

mod common;

use common::*;
use second::capture::Capture;
use second::kinds::CLOSE;
use second::maker::{make, MIXES};
use second::table::{Row, Sort, Table};

/// A request of each sort under the id 7, limit 4, and its completions with
/// their sizes.
fn pairs() -> Vec<(Vec<u8>, Vec<u8>, u8, u32)> {
    vec![
        (io(7, 4), io_done(7, 0, 2, &[1, 2]), 15, 2),
        (io(7, 4), io_done(7, 0x8007_007A, 0, &[1, 2, 3, 4]), 15, 4),
        (io(7, 4), io_done(7, 0x8007_04C7, 0, &[]), 15, 0),
        (bulk_in(7, 4), urb_done(7, &[1, 2, 3]), 16, 3),
        (bulk_in(7, 4), urb_done_plain(7, 0), 17, 0),
        (bulk_out(7, &[1, 2, 3, 4]), urb_done_plain(7, 4), 17, 4),
    ]
}

fn requests() -> [Vec<u8>; 4] {
    let mut internal = io(7, 4);
    internal[8] = 3;
    [
        io(7, 4),
        internal,
        bulk_in(7, 4),
        bulk_out(7, &[1, 2, 3, 4]),
    ]
}

/// "a cancel marks the row, names its request as cause and leaves it open"
#[test]
fn a_cancel_marks_its_row_and_leaves_it_open() {
    for request in requests() {
        let mut table = ready();
        judge(&mut table, 1, &request);
        let (at, row) = table.channels[0].row_of(7).expect("an open row");
        assert!(!row.marked);
        let entry = judge(&mut table, 1, &cancel(7));
        assert_eq!((entry.number, entry.answer, entry.kind), (11, 0, 13));
        assert_eq!((entry.request, entry.cause, entry.size), (7, 10, 0));
        let marked = Row {
            marked: true,
            ..row
        };
        assert_eq!(table.channels[0].row_of(7), Some((at, marked)));
        assert_eq!(table.channels[0].open_rows(), 1);
    }
}

/// "A second cancel of a marked row is accepted with cause 0", and so are more.
#[test]
fn further_cancels_name_nothing_and_change_nothing() {
    let mut table = ready();
    judge(&mut table, 1, &bulk_in(7, 4));
    judge(&mut table, 1, &cancel(7));
    let before = table.channels;
    for _ in 0..3 {
        let entry = judge(&mut table, 1, &cancel(7));
        assert_eq!((entry.answer, entry.kind), (0, 13));
        assert_eq!((entry.request, entry.cause, entry.size), (7, 0, 0));
        assert_eq!(table.channels, before);
    }
    assert_eq!(judge(&mut table, 2, &urb_done(7, &[1])).cause, 10);
}

/// "its completion is judged as ever and frees it"
#[test]
fn a_late_completion_is_accepted_and_frees_the_row() {
    for (request, completion, kind, size) in pairs() {
        for cancels in 0..3 {
            let mut table = ready();
            judge(&mut table, 1, &request);
            let without = {
                let table = table.clone();
                table.payload(0, 2, &completion).to_vec()
            };
            for _ in 0..cancels {
                judge(&mut table, 1, &cancel(7));
            }
            assert_eq!(table.payload(0, 2, &completion), without);
            let entry = judge(&mut table, 2, &completion);
            assert_eq!((entry.answer, entry.kind), (0, kind));
            assert_eq!((entry.request, entry.cause, entry.size), (7, 10, size));
            assert_eq!(table.channels[0].open_rows(), 0);
            // Behind it nothing is open.
            assert_eq!(answer(&mut table, 2, &completion), 11);
            assert_eq!(judge(&mut table, 1, &cancel(7)).cause, 0);
            assert_eq!(table.channels, ready().channels);
        }
    }
}

/// A message and its answer.
type Refusal = (Vec<u8>, u8);

/// Answers 2 to 14 change only the next number: the row stays, and so does its
/// mark.
#[test]
fn a_refused_late_completion_leaves_the_marked_row() {
    let cut = |mut message: Vec<u8>, length| {
        message.truncate(length);
        message
    };
    let mut elsewhere = io_done(7, 0, 0, &[]);
    elsewhere[0] = 6;
    let any: [(u8, Vec<u8>, u8); 8] = [
        (0, io_done(7, 0, 0, &[]), 2),
        (4, urb_done_plain(7, 0), 2),
        (2, cut(urb_done(7, &[1]), 11), 3),
        (2, elsewhere, 5),
        (2, cut(urb_done(7, &[1, 2]), 37), 7),
        (2, urb_done(7, &[]), 8),
        (2, io_done(0x8000_0007, 0, 0, &[]), 11),
        (2, urb_done_plain(8, 0), 11),
    ];
    let by_sort: [(Vec<u8>, Vec<Refusal>, Vec<u8>); 3] = [
        (
            io(7, 4),
            vec![
                (urb_done(7, &[1]), 12),
                (urb_done_plain(7, 0), 12),
                (io_done(7, 0, 5, &[0; 5]), 13),
                (io_done(7, 0, 3, &[1, 2]), 14),
                (io_done(7, 0x8007_007A, 3, &[0; 3]), 14),
                (io_done(7, 0x8007_04C7, 1, &[1]), 14),
            ],
            io_done(7, 0, 4, &[0; 4]),
        ),
        (
            bulk_in(7, 4),
            vec![
                (io_done(7, 0, 0, &[]), 12),
                (urb_done(7, &[0; 5]), 13),
                (urb_done_plain(7, 1), 13),
            ],
            urb_done(7, &[0; 4]),
        ),
        (
            bulk_out(7, &[0; 4]),
            vec![
                (io_done(7, 0, 0, &[]), 12),
                (urb_done(7, &[1]), 12),
                (urb_done_plain(7, 5), 13),
            ],
            urb_done_plain(7, 4),
        ),
    ];
    for (request, refusals, completion) in by_sort {
        let mut table = ready();
        judge(&mut table, 1, &request);
        judge(&mut table, 1, &cancel(7));
        let before = table.channels;
        for (side, message, wanted) in &any {
            assert_eq!(answer(&mut table, *side, message), *wanted);
            assert_eq!(table.channels, before);
        }
        for (message, wanted) in &refusals {
            assert!(table.payload(0, 2, message).is_empty());
            assert_eq!(answer(&mut table, 2, message), *wanted);
            assert_eq!(table.channels, before);
        }
        assert_eq!(judge(&mut table, 1, &cancel(7)).cause, 0);
        assert_eq!(judge(&mut table, 2, &completion).cause, 10);
    }
}

/// "The id stays in use until then": 9, and free again afterwards.
#[test]
fn the_id_of_a_marked_row_is_in_use() {
    let mut table = ready_with(10);
    judge(&mut table, 1, &bulk_in(7, 4));
    judge(&mut table, 1, &cancel(7));
    let before = table.channels;
    for request in requests() {
        assert_eq!(answer(&mut table, 1, &request), 9);
    }
    // NoAck skips 9 and takes no row.
    let no_ack = transfer(0x106, &urb(10, 0x8000_0007, &isoch(0, 0)), 0, &[]);
    assert_eq!(judge(&mut table, 1, &no_ack).kind, 12);
    assert_eq!(table.channels, before);
    assert_eq!(judge(&mut table, 2, &urb_done_plain(7, 0)).cause, 10);

    // The id is free, and what opens it next is not marked.
    assert_eq!(table.next, 18);
    for (step, request) in requests().iter().enumerate() {
        let opened = 18 + 3 * step as u32;
        assert_eq!(judge(&mut table, 1, request).number, opened);
        assert_eq!(judge(&mut table, 1, &cancel(7)).cause, opened);
        let completion = match step {
            0 | 1 => io_done(7, 0, 0, &[]),
            _ => urb_done_plain(7, 0),
        };
        assert_eq!(judge(&mut table, 2, &completion).cause, opened);
    }
}

/// "closes a new request with the same id" was the fault: with the id in use
/// there is no new request, and each completion names its own.
#[test]
fn a_late_completion_does_not_close_a_new_request() {
    let mut table = ready();
    judge(&mut table, 1, &bulk_in(7, 4));
    judge(&mut table, 1, &cancel(7));
    assert_eq!(answer(&mut table, 1, &bulk_in(7, 9)), 9);
    // Held to the 4 of the cancelled request.
    assert_eq!(answer(&mut table, 2, &urb_done(7, &[0; 9])), 13);
    assert_eq!(judge(&mut table, 2, &urb_done(7, &[0; 4])).cause, 10);
    assert_eq!(judge(&mut table, 1, &bulk_in(7, 9)).number, 15);
    assert_eq!(judge(&mut table, 2, &urb_done(7, &[0; 9])).cause, 15);
}

/// "9, 10 and 11 follow the new rows"
#[test]
fn marked_rows_fill_the_table() {
    for marked in [1, 8, 16] {
        let mut table = ready();
        for id in 0..16 {
            judge(&mut table, 1, &io(id, 4));
        }
        for id in 0..marked {
            assert_eq!(judge(&mut table, 1, &cancel(id)).cause, 10 + id);
        }
        let before = table.channels;
        for request in [io(16, 4), bulk_in(16, 4), bulk_out(16, &[1])] {
            assert_eq!(answer(&mut table, 1, &request), 10);
        }
        assert_eq!(answer(&mut table, 1, &io(0, 4)), 9);
        assert_eq!(table.channels, before);
        // The freed row is the lowest, and its mark has gone with the request.
        assert_eq!(judge(&mut table, 2, &io_done(0, 0, 0, &[])).cause, 10);
        assert_eq!(answer(&mut table, 1, &bulk_in(16, 4)), 0);
        let (at, row) = table.channels[0].row_of(16).expect("an open row");
        assert_eq!((at, row.marked), (0, false));
        assert_eq!(answer(&mut table, 1, &io(0, 4)), 10);
    }
}

/// "so do retract and close"; their size is the rows that were open.
#[test]
fn retract_and_close_count_and_free_marked_rows() {
    let start = || {
        let mut table = ready();
        for id in 0..5 {
            judge(&mut table, 1, &io(id, 4));
        }
        for id in [1, 4] {
            judge(&mut table, 1, &cancel(id));
        }
        table
    };
    let mut table = start();
    let entry = judge(&mut table, 1, &hex(RETRACT));
    assert_eq!((entry.kind, entry.size, entry.cause), (14, 5, 0));
    assert_eq!(table.channels[0].open_rows(), 0);
    for id in [0, 1] {
        assert_eq!(answer(&mut table, 2, &io_done(id, 0, 0, &[])), 6);
        assert_eq!(answer(&mut table, 1, &cancel(id)), 6);
    }
    assert_eq!(table.close(0, 0).map(|entry| entry.size), Some(0));

    let mut table = start();
    assert_eq!(table.close(0, 0).map(|entry| entry.size), Some(5));
    for id in [0, 1] {
        assert_eq!(answer(&mut table, 2, &io_done(id, 0, 0, &[])), 5);
        assert_eq!(answer(&mut table, 1, &cancel(id)), 5);
    }
    // Ready again, nothing is left of them.
    table.channels[0] = ready().channels[0];
    for id in [0, 1] {
        assert_eq!(answer(&mut table, 2, &io_done(id, 0, 0, &[])), 11);
        let entry = judge(&mut table, 1, &cancel(id));
        assert_eq!((entry.answer, entry.cause), (0, 0));
        let opened = judge(&mut table, 1, &io(id, 4)).number;
        assert_eq!(judge(&mut table, 1, &cancel(id)).cause, opened);
    }
}

/// A refused cancel, and one answered 1, marks nothing.
#[test]
fn only_an_accepted_cancel_marks() {
    let mut table = ready();
    judge(&mut table, 1, &io(7, 4));
    let before = table.channels;
    let mut long = cancel(7);
    long.push(0);
    let mut other_device = cancel(7);
    other_device[0] = 6;
    let refusals: [(u8, &[u8], u8); 5] = [
        (4, &cancel(7), 2),
        (1, &cancel(7)[..11], 3),
        (1, &other_device, 5),
        (1, &cancel(7)[..15], 7),
        (1, &long, 7),
    ];
    for (side, message, wanted) in refusals {
        assert_eq!(answer(&mut table, side, message), wanted);
        assert_eq!(table.channels, before);
    }
    table.next = u32::MAX;
    assert_eq!(table.judge(0, 1, 0, &cancel(7)), None);
    assert_eq!(table.channels, before);
    table.next = 20;
    assert_eq!(judge(&mut table, 1, &cancel(7)).cause, 10);
}

#[test]
fn a_mark_outlives_the_callback() {
    let mut table = ready();
    judge(&mut table, 1, &io(7, 4));
    judge(&mut table, 1, &cancel(7));
    judge(&mut table, 1, &words(&[0x4000_0004, 0, 0x101, 0]));
    assert_eq!(answer(&mut table, 2, &io_done(7, 0, 0, &[])), 5);
    judge(&mut table, 1, &hex(REGISTER_5));
    assert_eq!(judge(&mut table, 1, &cancel(7)).cause, 0);
    assert_eq!(judge(&mut table, 2, &io_done(7, 0, 0, &[])).cause, 10);
}

#[test]
fn a_mark_is_of_one_row_on_one_channel() {
    let mut table = ready();
    table.channels[1] = table.channels[0];
    for channel in 0..2 {
        table.judge(channel, 1, 0, &bulk_in(7, 4));
    }
    judge(&mut table, 1, &io(0x8000_0007, 4));
    assert_eq!(judge(&mut table, 1, &cancel(7)).cause, 10);
    let there = table.judge(1, 1, 0, &cancel(7)).expect("an entry");
    assert_eq!(there.cause, 11);
    assert_eq!(judge(&mut table, 1, &cancel(0x8000_0007)).cause, 12);
    assert_eq!(judge(&mut table, 1, &cancel(7)).cause, 0);
}

/// 01: "Where a table not reached from a new one holds an id twice, the lowest
/// row counts", marked or not.
#[test]
fn the_lowest_row_counts_for_a_cancel() {
    let row = |number, marked| {
        Some(Row {
            request: 7,
            sort: Sort::Io,
            limit: 4,
            number,
            marked,
        })
    };
    let mut table = ready();
    table.channels[0].rows[4] = row(2, true);
    table.channels[0].rows[9] = row(1, false);
    let before = table.channels;
    assert_eq!(judge(&mut table, 1, &cancel(7)).cause, 0);
    assert_eq!(table.channels, before);
    assert_eq!(judge(&mut table, 2, &io_done(7, 0, 0, &[])).cause, 2);
    assert_eq!(judge(&mut table, 1, &cancel(7)).cause, 1);
    assert_eq!(table.channels[0].rows[9], row(1, true));
}

/// "of those that name one request, at most one is a cancel and at most one a
/// completion", and by 01 each names an accepted request of its own channel and
/// id; a request that is completed is not cancelled any more.
#[test]
fn demand_3_over_made_captures() {
    for seed in 0..MIXES.len() as u64 {
        let bytes = make(seed, 4_000);
        let mut table = Table::open(1);
        let mut entries = Vec::new();
        let mut named = vec![(false, false)];
        for record in Capture::read(&bytes).records {
            let entry = if record.side == CLOSE {
                table.close(record.channel, record.stamp)
            } else {
                table.judge(record.channel, record.side, record.stamp, record.message)
            };
            let entry = entry.expect("a usable number");
            entries.push(entry);
            named.push((false, false));
            if entry.cause == 0 {
                assert!(!matches!((entry.answer, entry.kind), (0, 15..=17)));
                continue;
            }
            let request = entries[entry.cause as usize - 1];
            assert_eq!(request.answer, 0);
            assert!(matches!(request.kind, 8..=11));
            assert_eq!(
                (request.channel, request.request),
                (entry.channel, entry.request)
            );
            let (cancelled, completed) = &mut named[entry.cause as usize];
            assert!(!*completed);
            match entry.kind {
                13 => assert!(!std::mem::replace(cancelled, true)),
                _ => *completed = true,
            }
        }
        let both = named.iter().filter(|names| **names == (true, true));
        assert!(both.count() > 10, "seed {seed}");
    }
}
