//! 01 "Known bad readings", one test for each of the eight.

mod common;

use common::*;

#[test]
fn the_journal_is_not_sorted_by_stamp() {
    let mut table = ready();
    let stamps = [9, 9, 3, u64::MAX, 0];
    for (step, stamp) in stamps.into_iter().enumerate() {
        let request = io(step as u32, 4);
        let entry = table.judge(0, 1, stamp, &request).expect("an entry");
        assert_eq!(
            (entry.number, entry.stamp, entry.answer),
            (10 + step as u32, stamp, 0)
        );
    }
    let done = table
        .judge(0, 2, 1, &io_done(2, 0, 0, &[]))
        .expect("an entry");
    assert_eq!(done.cause, 12);
}

#[test]
fn a_completion_is_not_matched_by_message_id() {
    let mut table = ready();
    let mut request = bulk_in(7, 8);
    request[4] = 0x33;
    judge(&mut table, 1, &request);
    let mut by_message = urb_done(0x33, &[1]);
    by_message[4] = 0x33;
    assert_eq!(answer(&mut table, 2, &by_message), 11);
    let mut by_request = urb_done(7, &[1]);
    by_request[4] = 0x99;
    assert_eq!(judge(&mut table, 2, &by_request).cause, 10);
}

#[test]
fn an_interface_is_30_bits() {
    // UsbDevice and RequestCompletion given with top bits set.
    let mut table = in_phase(4, 0, 1);
    let mut device = add_device(0);
    device[16..20].copy_from_slice(&0xC000_0004u32.to_le_bytes());
    assert_eq!(answer(&mut table, 2, &device), 0);
    let register = words(&[0x4000_0004, 0, 0x101, 1, 0x8000_0005]);
    assert_eq!(answer(&mut table, 1, &register), 0);
    assert_eq!(answer(&mut table, 1, &io(1, 4)), 0);
    assert_eq!(answer(&mut table, 2, &io_done(1, 0, 0, &[])), 0);
    // And the default ids are still default ids under other top bits.
    let mut table = in_phase(4, 0, 1);
    for top in 0..4u32 {
        for low in 0..4u32 {
            device[16..20].copy_from_slice(&(top << 30 | low).to_le_bytes());
            assert_eq!(answer(&mut table, 2, &device), 8);
        }
    }
}

#[test]
fn no_ack_is_not_part_of_the_request_id() {
    let mut table = ready_with(10);
    let message = transfer(0x106, &urb(10, 0x8000_0007, &isoch(1, 1)), 2, &[5, 6]);
    assert_eq!(table.payload(0, 1, &message), [5, 6]);
    let entry = judge(&mut table, 1, &message);
    assert_eq!(
        (entry.answer, entry.kind, entry.request, entry.size),
        (0, 12, 7, 2)
    );
    assert_eq!(table.channels[0].open_rows(), 0);
    assert_eq!(answer(&mut table, 2, &urb_done_plain(7, 0)), 11);
}

#[test]
fn texts_are_counted_in_units() {
    // "A" and a zero unit are count 2 and four bytes; the count in bytes, 4,
    // would run over what follows.
    let mut table = in_phase(4, 0, 1);
    let mut device = add_device(0);
    assert_eq!(device[20..28], hex("02000000 41000000"));
    device[20] = 4;
    assert_eq!(answer(&mut table, 2, &device), 7);
    device[20] = 2;
    assert_eq!(answer(&mut table, 2, &device), 0);
}

#[test]
fn sizes_are_not_added_in_32_bits() {
    let mut table = ready();
    // 0xFFFFFFFF and 20 make 19; with RequestId's and OutputBufferSize's 8 the
    // sum is 27 in 32 bits.
    let mut message = words(&[0x4000_0004, 0, 0x102, 0, 0xFFFF_FFFF]);
    message.extend([0; 7]);
    assert_eq!(message.len(), 27);
    assert_eq!(answer(&mut table, 1, &message), 7);
    // 12 times 2^30 is 0 in 32 bits.
    let urb = urb(10, 1, &isoch(0x4000_0000, 0));
    assert_eq!(answer(&mut table, 1, &transfer(0x105, &urb, 0, &[])), 7);
    // 0xFFFFFFEC and the 20 fixed bytes make 0.
    let message = words(&[0x4000_0004, 0, 0x105, 0xFFFF_FFEC]);
    assert_eq!(answer(&mut table, 1, &message), 7);
    // A text of 2^31 units has 0 bytes in 32 bits.
    let mut table = in_phase(4, 0, 1);
    let mut device = add_device(0);
    device[23] = 0x80;
    assert_eq!(answer(&mut table, 2, &device), 7);
}

#[test]
fn no_bytes_stand_behind_kind_17() {
    let mut table = ready();
    judge(&mut table, 1, &bulk_out(7, &[1, 2, 3]));
    let mut with_bytes = urb_done_plain(7, 3);
    with_bytes.extend([1, 2, 3]);
    assert_eq!(answer(&mut table, 2, &with_bytes), 7);
    let plain = urb_done_plain(7, 3);
    assert!(table.payload(0, 2, &plain).is_empty());
    let entry = judge(&mut table, 2, &plain);
    assert_eq!((entry.answer, entry.cause, entry.size), (0, 10, 3));
}

#[test]
fn a_refused_completion_keeps_the_row() {
    let mut table = ready();
    judge(&mut table, 1, &io(7, 4));
    let refusals: [(Vec<u8>, u8); 5] = [
        (io_done(7, 0, 4, &[1, 2, 3]), 14),
        (io_done(7, 0, 5, &[1, 2, 3, 4, 5]), 13),
        (urb_done(7, &[1]), 12),
        (urb_done_plain(7, 0), 12),
        (io_done(8, 0, 0, &[]), 11),
    ];
    // 02 R-2: and so it does once a cancel has marked the row.
    for _ in 0..2 {
        let before = table.channels;
        for (message, wanted) in &refusals {
            assert_eq!(answer(&mut table, 2, message), *wanted);
            assert_eq!(table.channels, before);
        }
        judge(&mut table, 1, &cancel(7));
    }
    assert_eq!(judge(&mut table, 2, &io_done(7, 0, 0, &[])).cause, 10);
}
