//! What `tally` counts of 000 2.2.11, on calls counted by hand.

mod common;

use common::*;
use second::capture::Record;
use second::classes::Class;
use second::tally::Tally;

/// The calls on channel 0, in phase 4.
fn capture(calls: &[(u8, Vec<u8>)]) -> Vec<u8> {
    let setup: [(u8, Vec<u8>); 4] = [
        (1, hex(CAPABILITY_REQUEST)),
        (2, hex(CAPABILITY_RESPONSE)),
        (1, hex(SERVER_CREATED)),
        (2, hex(CLIENT_CREATED)),
    ];
    let mut out = Vec::new();
    for (side, message) in setup.iter().chain(calls) {
        let record = Record {
            channel: 0,
            side: *side,
            stamp: 0,
            message,
        };
        record.write(&mut out);
    }
    out
}

/// A line for each class but the `Value` ones: answer, count and class.
fn counted(calls: &[(u8, Vec<u8>)]) -> Vec<String> {
    let tally = Tally::of(&capture(calls));
    let mut out = Vec::new();
    for class in Class::all() {
        for answer in [0, 7, 8] {
            let count = tally.classes.count(class, answer);
            if count > 0 && !matches!(class, Class::Value { .. }) {
                out.push(format!("{answer} {count} {class}"));
            }
        }
    }
    out
}

/// The device of `common` with words from the given field on.
fn device(field: usize, values: &[u32]) -> Vec<u8> {
    let mut message = add_device(10);
    let start = message.len() - 28 + 4 * field;
    for (at, value) in values.iter().enumerate() {
        let at = start + 4 * at;
        message[at..at + 4].copy_from_slice(&value.to_le_bytes());
    }
    message
}

#[test]
fn fields_barred_alone_and_together() {
    let mut text = device(1, &[3]);
    // The instance id's zero unit, so that the field is not wrong alone.
    text[26] = 0x41;
    let calls = [
        (2, device(0, &[0x0100_001C])),
        (2, device(1, &[0])),
        (2, device(1, &[3, 0x500, 0x100, 0, 2])),
        (2, device(0, &[0; 7])),
        (2, text),
        (2, device(5, &[0x101])),
        (2, device(5, &[0])),
    ];
    let wanted = [
        "8 1 CbSize allowed but for its byte 3",
        "8 1 speed allowed but for its byte 1",
        "8 1 bus version 0 with speed 1",
        "0 1 bus version 2 with speed 0",
        "8 1 bus version 2 with speed barred",
        "8 1 bus version barred with speed barred",
        "8 1 bus version and speed barred",
        "8 1 three or more fields barred",
        "0 1 at a byte divisible by 4, all fields good",
        "8 1 at a byte divisible by 4, CbSize barred",
        "8 1 at a byte divisible by 4, speed barred",
        "0 1 after tries, the first with CbSize barred",
        "0 1 after tries, the last with speed barred",
    ];
    assert_eq!(counted(&calls), wanted);
}

#[test]
fn values_are_counted_where_all_else_is_right() {
    let calls = [
        (2, device(1, &[3])),
        (2, device(0, &[27, 3])),
        (2, device(1, &[2])),
    ];
    let tally = Tally::of(&capture(&calls));
    let mut seen = Vec::new();
    for class in Class::all() {
        let [accepted, refused] = [0, 8].map(|answer| tally.classes.count(class, answer));
        if matches!(class, Class::Value { .. }) && accepted + refused > 0 {
            seen.push(format!("{accepted} {refused} {class}"));
        }
    }
    let wanted = [
        "1 0 CbSize 28",
        "1 0 bus version 2",
        "0 1 bus version 3",
        "1 0 USBDI 0x600",
        "1 0 USB 0x200",
        "1 0 host 0",
        "1 0 speed 1",
        "1 0 NoAck ms 10",
    ];
    assert_eq!(seen, wanted);
}

fn sized(size: u32, length: usize) -> Vec<u8> {
    let mut message = device(0, &[size]);
    let start = message.len() - 28;
    message.resize(start + length, 0);
    message
}

#[test]
fn structures_of_another_length() {
    let calls = [(28, 0), (28, 6), (24, 24), (29, 29), (28, 29), (28, 56)];
    let calls = calls.map(|(size, length)| (2, sized(size, length)));
    let wanted = [
        "7 1 cut before CbSize",
        "7 1 cut inside bus version",
        "7 1 cut before NoAck ms",
        "7 1 cut behind a barred field",
        "7 2 bytes behind, all fields good",
        "7 1 bytes behind, one or more barred",
        "7 1 fewer bytes than 28, as CbSize says",
        "7 1 more bytes than 28, as CbSize says",
    ];
    assert_eq!(counted(&calls), wanted);
}

#[test]
fn transfers_to_a_device_by_its_milliseconds() {
    let isoch = |kind, request, packets| {
        let urb = urb(10, request, &isoch(packets, packets as usize));
        transfer(kind, &urb, 0, &[])
    };
    let calls = [
        (2, device(6, &[256])),
        (1, isoch(0x106, 0x8000_0001, 1)),
        (1, isoch(0x106, 1, 1)),
        (1, isoch(0x105, 0x8000_0002, 1)),
        (1, transfer(0x106, &urb(9, 0x8000_0002, &[0; 8]), 0, &[])),
        (1, isoch(0x105, 2, 1)),
        // Refused for its packets and for its id, and not for NoAck.
        (1, isoch(0x106, 3, 1025)),
        (1, isoch(0x106, 1, 1)),
    ];
    let wanted = [
        "0 1 bus version 2 with speed 1",
        "0 1 at a byte divisible by 4, all fields good",
        "0 1 NoAck ms 256, then isochronous transfer out with NoAck",
        "8 1 NoAck ms 256, then isochronous transfer in with NoAck",
        "8 1 NoAck ms 256, then another transfer with NoAck",
        "0 1 NoAck ms 256, then isochronous transfer out without NoAck",
        "0 1 NoAck ms 256, then isochronous transfer in without NoAck",
    ];
    assert_eq!(counted(&calls), wanted);
}

#[test]
fn every_class_has_a_line_of_its_own() {
    let text = Tally::of(&[]).print();
    for class in Class::all() {
        let line = format!("     0      0      0  {class}");
        assert_eq!(text.lines().filter(|found| *found == line).count(), 1);
    }
}
