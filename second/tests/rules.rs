//! Rules of 01 that its cases do not touch, each at its limit. Cancels, which 02
//! R-2 corrects, are in `late.rs`.

mod common;

use common::*;
use second::table::{Channel, Row, Sort, Table};

#[test]
fn answer_1_comes_first_and_changes_nothing() {
    for next in [0, 4_294_967_295] {
        let mut table = ready();
        table.next = next;
        let before = table.clone();
        assert_eq!(table.judge(0, 1, 0, &hex(C1)), None);
        assert_eq!(table.judge(99, 99, 0, &[]), None);
        assert_eq!(table.close(0, 0), None);
        assert_eq!(table.close(99, 0), None);
        assert!(table.payload(0, 1, &bulk_out(1, &[1])).is_empty());
        assert_eq!(table, before);
    }
    for first in [1, 4_294_967_294] {
        assert_eq!(
            Table::open(first).close(0, 0).map(|entry| entry.number),
            Some(first)
        );
    }
}

#[test]
fn answer_2_by_channel_or_side() {
    let mut table = ready();
    for side in [0, 3, 4, 255] {
        assert_eq!(answer(&mut table, side, &hex(C1)), 2);
    }
    for channel in [8, 9, 255] {
        let entry = table.judge(channel, 1, 7, &[]).expect("an entry");
        assert_eq!(
            (entry.answer, entry.kind, entry.channel, entry.stamp),
            (2, 0, channel, 7)
        );
        let closed = table.close(channel, 7).expect("an entry");
        assert_eq!((closed.answer, closed.kind, closed.side), (2, 0, 3));
    }
}

#[test]
fn answers_3_and_4_by_length() {
    let mut table = ready();
    for length in 0..12 {
        assert_eq!(answer(&mut table, 1, &vec![0; length]), 3);
    }
    let fit = |length: usize| {
        let mut message = words(&[0x4000_0004, 0, 0x102, 0, (length - 28) as u32]);
        message.extend(vec![0; length - 28]);
        message.extend(words(&[4, 1]));
        message
    };
    let over = judge(&mut table, 1, &fit(65_536));
    assert_eq!((over.answer, over.kind), (4, 0));
    assert_eq!(answer(&mut table, 1, &vec![0xFF; 65_536]), 4);
    assert!(table.payload(0, 1, &fit(65_536)).is_empty());
    assert_eq!(table.payload(0, 1, &fit(65_535)).len(), 65_507);
    assert_eq!(answer(&mut table, 1, &fit(65_535)), 0);
}

#[test]
fn the_phases_run_from_0_to_6_and_back() {
    let messages: [(u8, u8, Vec<u8>, u8); 7] = [
        (1, 1, hex(CAPABILITY_REQUEST), 0),
        (2, 2, hex(CAPABILITY_RESPONSE), 1),
        (3, 1, hex(SERVER_CREATED), 2),
        (4, 2, hex(CLIENT_CREATED), 3),
        (5, 2, hex(ADD_VIRTUAL_CHANNEL), 4),
        (6, 2, add_device(0), 4),
        (14, 1, hex(RETRACT), 5),
    ];
    for phase in 0..=6 {
        for (kind, side, message, wanted) in &messages {
            let mut table = in_phase(phase, 0, 1);
            let entry = judge(&mut table, *side, message);
            let known = *kind != 14 || phase >= 5;
            let answer = if !known {
                5
            } else if phase == *wanted {
                0
            } else {
                6
            };
            assert_eq!(entry.answer, answer, "kind {kind} in phase {phase}");
            assert_eq!(entry.kind, if known { *kind } else { 0 });
        }
        let mut table = in_phase(phase, 0, 1);
        assert_eq!(table.close(0, 0).map(|entry| entry.kind), Some(18));
        assert_eq!(table.channels[0], Channel::NEW);
    }
}

#[test]
fn after_a_retract_the_device_is_known_but_out_of_phase() {
    let mut table = ready();
    for id in 0..3 {
        judge(&mut table, 1, &io(id, 4));
    }
    let entry = judge(&mut table, 1, &hex(RETRACT));
    assert_eq!((entry.answer, entry.kind, entry.size), (0, 14, 3));
    assert_eq!(table.channels[0].open_rows(), 0);
    let late: [(u8, Vec<u8>, u8); 4] = [
        (1, io(9, 4), 8),
        (1, hex(REGISTER_5), 7),
        (2, io_done(1, 0, 0, &[]), 15),
        (1, words(&[0x4000_0004, 0, 0x100, 1]), 13),
    ];
    for (side, message, kind) in late {
        let entry = judge(&mut table, side, &message);
        assert_eq!((entry.answer, entry.kind), (6, kind));
    }
    table.close(0, 0);
    assert_eq!(answer(&mut table, 1, &io(9, 4)), 5);
}

#[test]
fn a_close_counts_and_forgets() {
    let mut table = ready_with(512);
    for id in 0..5 {
        judge(&mut table, 1, &io(id, 4));
    }
    let entry = table.close(0, 0).expect("an entry");
    assert_eq!((entry.size, entry.request, entry.cause), (5, 0, 0));
    assert_eq!(table.channels[0], Channel::NEW);
    assert_eq!(table.close(0, 0).map(|entry| entry.size), Some(0));
}

#[test]
fn callbacks_are_replaced_and_taken_back() {
    let mut table = ready();
    judge(&mut table, 1, &io(1, 4));
    judge(&mut table, 1, &io(2, 4));
    assert_eq!(
        answer(
            &mut table,
            1,
            &words(&[0x4000_0004, 0, 0x101, 9, 0xC000_0006])
        ),
        0
    );
    assert_eq!(answer(&mut table, 2, &io_done(1, 0, 0, &[])), 5);
    let mut by_new = io_done(1, 0, 0, &[]);
    by_new[0] = 6;
    assert_eq!(answer(&mut table, 2, &by_new), 0);
    assert_eq!(
        answer(&mut table, 1, &words(&[0x4000_0004, 0, 0x101, 0])),
        0
    );
    by_new[12] = 2;
    assert_eq!(answer(&mut table, 2, &by_new), 5);
    assert_eq!(table.channels[0].open_rows(), 1);
    // A callback equal to the device's id: the sides tell them apart.
    assert_eq!(
        answer(&mut table, 1, &words(&[0x4000_0004, 0, 0x101, 1, 4])),
        0
    );
    by_new[0] = 4;
    assert_eq!(answer(&mut table, 2, &by_new), 0);
    for id in 0..4 {
        assert_eq!(
            answer(&mut table, 1, &words(&[0x4000_0004, 0, 0x101, 1, id])),
            8
        );
    }
    assert_eq!(
        answer(&mut table, 1, &words(&[0x4000_0004, 0, 0x101, 0, 5])),
        7
    );
    assert_eq!(
        answer(&mut table, 1, &words(&[0x4000_0004, 0, 0x101, 1])),
        7
    );
}

fn device_answer(change: impl Fn(&mut Vec<u8>)) -> u8 {
    let mut message = add_device(0);
    change(&mut message);
    answer(&mut in_phase(4, 0, 1), 2, &message)
}

#[test]
fn capabilities_at_their_limits() {
    let at = |index: usize, value: u32| {
        device_answer(|message| {
            let start = message.len() - 28 + 4 * index;
            message[start..start + 4].copy_from_slice(&value.to_le_bytes());
        })
    };
    let cases: [(usize, &[u32], &[u32]); 7] = [
        (0, &[28], &[0, 27, 29]),
        // Speed is 1 here, which bus version 0 does not allow.
        (1, &[1, 2], &[0, 3]),
        (2, &[0x500, 0x600], &[0x4FF, 0x501, 0x5FF, 0x601]),
        (3, &[0x100, 0x110, 0x200], &[0, 0x101, 0x10F, 0x111, 0x201]),
        (4, &[0], &[1, 0x8000_0000]),
        (5, &[0, 1], &[2]),
        (6, &[0, 10, 11, 511, 512], &[1, 9, 513, 0xFFFF_FFFF]),
    ];
    for (index, allowed, barred) in cases {
        for value in allowed {
            assert_eq!(at(index, *value), 0, "{index} {value}");
        }
        for value in barred {
            assert_eq!(at(index, *value), 8, "{index} {value}");
        }
    }
    let slow = device_answer(|message| {
        let start = message.len() - 28;
        message[start + 4] = 0;
        message[start + 20] = 0;
    });
    assert_eq!(slow, 0);
}

#[test]
fn capabilities_are_compared_in_all_32_bits() {
    let base: [u32; 7] = [28, 2, 0x600, 0x200, 0, 1, 10];
    for (index, value) in base.into_iter().enumerate() {
        for bit in 10..32 {
            let other = value ^ 1 << bit;
            let answer = device_answer(|message| {
                let start = message.len() - 28 + 4 * index;
                message[start..start + 4].copy_from_slice(&other.to_le_bytes());
            });
            assert_eq!(answer, 8, "{index} {other:x}");
        }
    }
}

#[test]
fn speed_is_joined_with_the_bus_version_alone() {
    let allowed = [(0, 0), (1, 0), (1, 1), (2, 0), (2, 1)];
    for bus in 0..4 {
        for speed in 0..3 {
            let wanted = if allowed.contains(&(bus, speed)) {
                0
            } else {
                8
            };
            for usbdi in [0x500, 0x600] {
                for usb in [0x100, 0x110, 0x200] {
                    let answer = device_answer(|message| {
                        message.truncate(message.len() - 28);
                        message.extend(words(&[28, bus, usbdi, usb, 0, speed, 0]));
                    });
                    assert_eq!(answer, wanted, "{bus} {usbdi:x} {usb:x} {speed}");
                }
            }
        }
    }
}

#[test]
fn the_size_of_the_capabilities_does_not_move_their_end() {
    let sized = |size: u32, length: usize| {
        device_answer(|message| {
            let start = message.len() - 28;
            message[start..start + 4].copy_from_slice(&size.to_le_bytes());
            message.resize(start + length, 0);
        })
    };
    for size in [0, 4, 24, 27, 29, 32, 56] {
        assert_eq!(sized(size, 28), 8, "{size}");
        assert_eq!(sized(size, size as usize), 7, "{size}");
        assert_eq!(sized(28, size as usize), 7, "{size}");
    }
    for length in 0..28 {
        assert_eq!(sized(28, length), 7);
        assert_eq!(sized(27, length), 7);
    }
}

#[test]
fn the_milliseconds_are_kept_as_sent() {
    for ms in [0, 10, 11, 255, 256, 257, 511, 512] {
        let mut table = in_phase(4, 0, 1);
        let before = table.channels;
        for barred in [9, 513, 0x8000_0000 | ms.max(1)] {
            assert_eq!(answer(&mut table, 2, &add_device(barred)), 8);
            assert_eq!(table.channels, before);
        }
        assert_eq!(answer(&mut table, 2, &add_device(ms)), 0);
        assert_eq!(table.channels[0].no_ack_ms, ms);
        // In another phase a device changes nothing.
        for other in [0, 10, 512] {
            assert_eq!(answer(&mut table, 2, &add_device(other)), 6);
            assert_eq!(table.channels[0].no_ack_ms, ms);
        }
        table.close(0, 0);
        assert_eq!(table.channels[0].no_ack_ms, 0);
    }
}

fn with_texts(texts: [&[u16]; 4]) -> Vec<u8> {
    let mut message = words(&[0x4000_0001, 0, 0x101, 1, 4]);
    for text in texts {
        message.extend((text.len() as u32).to_le_bytes());
        message.extend(text.iter().flat_map(|unit| unit.to_le_bytes()));
    }
    message.extend(words(&[28, 0, 0x500, 0x100, 0, 0, 0]));
    message
}

#[test]
fn texts_at_their_limits() {
    let judge_texts = |texts| answer(&mut in_phase(4, 0, 1), 2, &with_texts(texts));
    let mut long = vec![0x41u16; 512];
    long[510..].fill(0);
    let mut longer = vec![0x41u16; 513];
    longer[511..].fill(0);
    for at in 0..4 {
        let mut texts: [&[u16]; 4] = [&[]; 4];
        let multi = at == 1 || at == 2;
        let cases: [(&[u16], u8); 8] = [
            (&[], 0),
            (&[0], 0),
            (&[0x41], 8),
            (&[0x100], 8),
            (&[0x41, 0], if multi { 8 } else { 0 }),
            (&[0, 0], 0),
            (&long, 0),
            (&longer, 8),
        ];
        for (text, wanted) in cases {
            texts[at] = text;
            assert_eq!(judge_texts(texts), wanted, "text {at} {text:?}");
        }
        // 513 units of which the last byte is missing: 7 before 8.
        texts = [&[]; 4];
        texts[at] = &longer;
        let mut message = with_texts(texts);
        message.pop();
        assert_eq!(answer(&mut in_phase(4, 0, 1), 2, &message), 7);
    }
}

#[test]
fn a_fixed_urb_has_one_size() {
    let sizes: [(u16, usize); 6] = [(7, 0), (2, 4), (0x1E, 4), (9, 8), (8, 16), (10, 20)];
    for (function, rest) in sizes {
        for length in 0..=24 {
            let urb = urb(function, 1, &vec![0; length]);
            let wanted = if length == rest { 0 } else { 7 };
            let message = transfer(0x105, &urb, 0, &[]);
            assert_eq!(
                answer(&mut ready(), 1, &message),
                wanted,
                "{function} {length}"
            );
        }
    }
}

#[test]
fn packets_at_their_limit() {
    let judge_packets = |packets, written| {
        let urb = urb(10, 1, &isoch(packets, written));
        answer(&mut ready(), 1, &transfer(0x105, &urb, 0, &[]))
    };
    assert_eq!(judge_packets(1024, 1024), 0);
    assert_eq!(judge_packets(1025, 1025), 8);
    assert_eq!(judge_packets(1025, 1024), 7);
    assert_eq!(judge_packets(1024, 1025), 7);
    assert_eq!(judge_packets(0, 0), 0);
    assert_eq!(judge_packets(0xFFFF_FFFF, 3), 7);
}

fn interface(length: u16, pipes: u32, written: usize) -> Vec<u8> {
    let mut out = length.to_le_bytes().to_vec();
    out.extend([0xEE; 6]);
    out.extend(pipes.to_le_bytes());
    out.extend(vec![0x77; 12 * written]);
    out
}

fn plain_interface(pipes: u32) -> Vec<u8> {
    interface(12 + 12 * pipes as u16, pipes, pipes as usize)
}

fn configuration(flag: u8, count: u32, list: &[Vec<u8>], descriptor: &[u8]) -> u8 {
    let mut rest = vec![flag, 0xFF, 0xFF, 0xFF];
    rest.extend(count.to_le_bytes());
    rest.extend(list.concat());
    rest.extend(descriptor);
    answer(&mut ready(), 1, &transfer(0x105, &urb(0, 1, &rest), 0, &[]))
}

#[test]
fn interface_lists_at_their_limits() {
    let empty = |count: usize| vec![plain_interface(0); count];
    assert_eq!(configuration(0, 0, &[], &[]), 0);
    assert_eq!(configuration(0, 32, &empty(32), &[]), 0);
    assert_eq!(configuration(0, 33, &empty(33), &[]), 8);
    assert_eq!(configuration(0, 33, &empty(32), &[]), 7);
    assert_eq!(configuration(0, 32, &empty(33), &[]), 7);
    assert_eq!(configuration(0, 0xFFFF_FFFF, &empty(3), &[]), 7);
    assert_eq!(configuration(0, 1, &[plain_interface(30)], &[]), 0);
    assert_eq!(configuration(0, 1, &[plain_interface(31)], &[]), 8);
    assert_eq!(
        configuration(0, 1, &[interface(12 + 12 * 31, 31, 30)], &[]),
        7
    );
    let mixed = [plain_interface(1), plain_interface(31), plain_interface(0)];
    assert_eq!(configuration(0, 3, &mixed, &[]), 8);
    // A wrong Length behind an interface that is over its limit.
    let both = [plain_interface(31), interface(13, 0, 0)];
    assert_eq!(configuration(0, 2, &both, &[]), 7);
    for (length, pipes) in [
        (11, 0),
        (13, 0),
        (24, 0),
        (12, 1),
        (24, 0x4001),
        (24, 0x4000_0001),
    ] {
        let odd = [interface(length, pipes, 1)];
        assert_eq!(configuration(0, 1, &odd, &[]), 7, "{length} {pipes}");
    }
}

#[test]
fn the_descriptor_of_a_configuration() {
    let list = [plain_interface(1)];
    let right = [9, 2, 0, 0, 0, 0, 0, 0, 0, 0, 0, 0];
    for flag in [1, 2, 0x80, 0xFF] {
        for length in 0..9 {
            assert_eq!(configuration(flag, 1, &list, &right[..length]), 7);
        }
        for length in 9..12 {
            assert_eq!(configuration(flag, 1, &list, &right[..length]), 0);
        }
        assert_eq!(
            configuration(flag, 1, &list, &[9, 1, 0, 0, 0, 0, 0, 0, 0]),
            8
        );
        assert_eq!(
            configuration(flag, 1, &list, &[8, 2, 0, 0, 0, 0, 0, 0, 0]),
            8
        );
        assert_eq!(configuration(flag, 1, &list, &[2, 9, 0, 0, 0, 0, 0, 0]), 7);
    }
    assert_eq!(configuration(0, 1, &list, &right[..9]), 7);
    assert_eq!(configuration(0, 1, &list, &right[..1]), 7);
}

#[test]
fn one_interface_in_a_select_interface() {
    let select = |list: &[Vec<u8>]| {
        let mut rest = vec![1, 2, 3, 4];
        rest.extend(list.concat());
        answer(&mut ready(), 1, &transfer(0x105, &urb(1, 1, &rest), 0, &[]))
    };
    assert_eq!(select(&[]), 7);
    assert_eq!(select(&[plain_interface(2)]), 0);
    assert_eq!(select(&[plain_interface(2), plain_interface(0)]), 7);
    assert_eq!(select(&[plain_interface(31)]), 8);
}

#[test]
fn which_functions_come_where() {
    let rests: [(u16, Vec<u8>); 8] = [
        (0, vec![0; 8]),
        (1, [vec![0; 4], plain_interface(0)].concat()),
        (2, vec![0; 4]),
        (7, vec![]),
        (8, vec![0; 16]),
        (9, vec![0; 8]),
        (10, isoch(0, 0)),
        (0x1E, vec![0; 4]),
    ];
    for (function, rest) in &rests {
        let barred = !matches!(function, 8..=10);
        let urb = urb(*function, 1, rest);
        let with_size = if barred { 8 } else { 0 };
        assert_eq!(answer(&mut ready(), 1, &transfer(0x105, &urb, 0, &[])), 0);
        assert_eq!(
            answer(&mut ready(), 1, &transfer(0x105, &urb, 1, &[])),
            with_size
        );
        assert_eq!(
            answer(&mut ready(), 1, &transfer(0x106, &urb, 0, &[])),
            with_size
        );
        assert_eq!(
            answer(&mut ready(), 1, &transfer(0x106, &urb, 1, &[1])),
            with_size
        );
        assert_eq!(answer(&mut ready(), 1, &transfer(0x106, &urb, 1, &[])), 7);
        assert_eq!(answer(&mut ready(), 1, &transfer(0x106, &urb, 0, &[1])), 7);
    }
    for function in [3, 4, 5, 6, 0x0B, 0x1F, 0x32, 0x0900, 0xFFFF] {
        for rest in [vec![], vec![0; 4], vec![0; 16]] {
            let urb = urb(function, 1, &rest);
            assert_eq!(answer(&mut ready(), 1, &transfer(0x105, &urb, 0, &[])), 8);
            assert_eq!(answer(&mut ready(), 1, &transfer(0x105, &urb, 0, &[1])), 7);
        }
    }
}

#[test]
fn sizes_of_a_urb_agree() {
    for length in 0..8u32 {
        let mut short = vec![0; length as usize];
        if length >= 2 {
            short[0] = length as u8;
        }
        assert_eq!(answer(&mut ready(), 1, &transfer(0x105, &short, 0, &[])), 7);
    }
    let mut urb = urb(9, 1, &[0; 8]);
    for size in [0u16, 15, 17, 0x1000] {
        urb[..2].copy_from_slice(&size.to_le_bytes());
        assert_eq!(answer(&mut ready(), 1, &transfer(0x105, &urb, 0, &[])), 7);
    }
}

#[test]
fn no_ack_is_for_isochronous_transfers_out_of_a_device_that_has_it() {
    let wanted: [(u32, u32, u16, Vec<u8>, u8); 6] = [
        (10, 0x106, 10, isoch(1, 1), 0),
        (0, 0x106, 10, isoch(1, 1), 8),
        (10, 0x105, 10, isoch(1, 1), 8),
        (10, 0x106, 9, vec![0; 8], 8),
        (10, 0x106, 8, vec![0; 16], 8),
        (10, 0x105, 7, vec![], 8),
    ];
    for (ms, kind, function, rest, answer_wanted) in wanted {
        let message = transfer(kind, &urb(function, 0x8000_0001, &rest), 0, &[]);
        let entry = judge(&mut ready_with(ms), 1, &message);
        assert_eq!(entry.answer, answer_wanted, "{ms} {kind} {function}");
        let refused_as = if kind == 0x105 { 10 } else { 11 };
        assert_eq!(entry.kind, if answer_wanted == 0 { 12 } else { refused_as });
    }
    // Without NoAck an isochronous transfer needs no milliseconds.
    let message = transfer(0x106, &urb(10, 1, &isoch(1, 1)), 0, &[]);
    assert_eq!(answer(&mut ready_with(0), 1, &message), 0);
}

#[test]
fn no_ack_skips_9_and_10() {
    let mut table = ready_with(10);
    for id in 0..16 {
        judge(&mut table, 1, &io(id, 4));
    }
    let before = table.channels;
    for id in [3, 99] {
        let message = transfer(0x106, &urb(10, 0x8000_0000 | id, &isoch(0, 0)), 1, &[1]);
        let entry = judge(&mut table, 1, &message);
        assert_eq!((entry.answer, entry.kind, entry.request), (0, 12, id));
    }
    assert_eq!(table.channels, before);
}

#[test]
fn nine_before_ten() {
    let mut table = ready();
    for id in 0..16 {
        judge(&mut table, 1, &io(id, 4));
    }
    assert_eq!(answer(&mut table, 1, &bulk_in(5, 4)), 9);
    assert_eq!(answer(&mut table, 1, &bulk_in(16, 4)), 10);
    // The same id is free on another channel, which has no device.
    assert_eq!(
        table
            .judge(1, 1, 0, &bulk_in(5, 4))
            .map(|entry| entry.answer),
        Some(5)
    );
}

#[test]
fn completions_fit_their_sort() {
    let requests: [(Vec<u8>, [u8; 3]); 3] = [
        (io(7, 4), [0, 12, 12]),
        (bulk_in(7, 4), [12, 0, 0]),
        (bulk_out(7, &[1, 2, 3, 4]), [12, 12, 0]),
    ];
    for (request, answers) in requests {
        let completions = [
            io_done(7, 0, 1, &[1]),
            urb_done(7, &[1]),
            urb_done_plain(7, 0),
        ];
        for (completion, wanted) in completions.iter().zip(answers) {
            let mut table = ready();
            judge(&mut table, 1, &request);
            assert_eq!(answer(&mut table, 2, completion), wanted);
        }
    }
}

#[test]
fn more_than_allowed() {
    let judge_after = |request: Vec<u8>, completion: Vec<u8>| {
        let mut table = ready();
        judge(&mut table, 1, &request);
        answer(&mut table, 2, &completion)
    };
    assert_eq!(judge_after(io(7, 2), io_done(7, 0, 2, &[1, 2])), 0);
    assert_eq!(judge_after(io(7, 2), io_done(7, 0, 0, &[1, 2, 3])), 13);
    assert_eq!(judge_after(bulk_in(7, 2), urb_done(7, &[1, 2, 3])), 13);
    assert_eq!(judge_after(bulk_in(7, 2), urb_done_plain(7, 0)), 0);
    assert_eq!(judge_after(bulk_in(7, 2), urb_done_plain(7, 1)), 13);
    assert_eq!(judge_after(bulk_out(7, &[1, 2]), urb_done_plain(7, 2)), 0);
    assert_eq!(judge_after(bulk_out(7, &[1, 2]), urb_done_plain(7, 3)), 13);
    assert_eq!(
        judge_after(bulk_out(7, &[1, 2]), urb_done_plain(7, 0xFFFF_FFFF)),
        13
    );
    // Kind 16 of size 0 is 8 even for an id that is not open.
    assert_eq!(judge_after(bulk_in(7, 2), urb_done(7, &[])), 8);
    assert_eq!(judge_after(bulk_in(7, 2), urb_done(8, &[])), 8);
}

#[test]
fn io_completions_agree_with_their_hresult() {
    let cases: [(u32, u32, &[u8], u8); 13] = [
        (0, 2, &[1, 2], 0),
        (0, 0, &[], 0),
        (1, 2, &[1, 2], 0),
        (0x7FFF_FFFF, 1, &[1, 2], 14),
        (0, 3, &[1, 2], 14),
        (0, 2, &[], 14),
        (0x8007_007A, 99, &[1, 2, 3], 0),
        (0x8007_007A, 2, &[1, 2], 14),
        (0x8007_007A, 0, &[], 14),
        (0x8007_001F, 5, &[], 0),
        (0x8007_001F, 1, &[1], 14),
        (0x8000_0000, 3, &[1, 2, 3], 14),
        (0xFFFF_FFFF, 0, &[], 0),
    ];
    for (hresult, information, data, wanted) in cases {
        let mut table = ready();
        judge(&mut table, 1, &io(7, 3));
        let completion = io_done(7, hresult, information, data);
        let payload = table.payload(0, 2, &completion).to_vec();
        assert_eq!(answer(&mut table, 2, &completion), wanted, "{hresult:x}");
        assert_eq!(payload, if wanted == 0 { data } else { &[] });
    }
}

#[test]
fn results_have_a_header_of_eight_bytes() {
    let with = |cb: u32, result: &[u8]| {
        let mut table = ready();
        judge(&mut table, 1, &bulk_in(7, 4));
        let mut message = words(&[0x4000_0005, 0, 0x102, 7, cb]);
        message.extend(result);
        message.extend(words(&[0, 0]));
        answer(&mut table, 2, &message)
    };
    assert_eq!(with(8, &[8, 0, 1, 2, 3, 4, 5, 6]), 0);
    assert_eq!(with(9, &[9, 0, 1, 2, 3, 4, 5, 6, 7]), 0);
    assert_eq!(with(8, &[9, 0, 1, 2, 3, 4, 5, 6]), 7);
    assert_eq!(with(7, &[7, 0, 1, 2, 3, 4, 5]), 7);
    assert_eq!(with(0, &[]), 7);
    assert_eq!(with(0xFFFF_FFEC, &[8, 0, 0, 0, 0, 0, 0, 0]), 7);
}

#[test]
fn ids_of_io_requests_have_32_bits() {
    let mut table = ready();
    assert_eq!(
        judge(&mut table, 1, &io(0x8000_0007, 4)).request,
        0x8000_0007
    );
    assert_eq!(answer(&mut table, 1, &bulk_in(7, 4)), 0);
    assert_eq!(judge(&mut table, 2, &urb_done(7, &[1])).cause, 11);
    assert_eq!(
        judge(&mut table, 2, &io_done(0x8000_0007, 0, 0, &[])).cause,
        10
    );
}

#[test]
fn the_lowest_row_counts_where_an_id_stands_twice() {
    let mut table = ready();
    let row = |number| {
        Some(Row {
            request: 7,
            sort: Sort::Io,
            limit: 4,
            number,
            marked: false,
        })
    };
    table.channels[0].rows[9] = row(1);
    table.channels[0].rows[4] = row(2);
    assert_eq!(judge(&mut table, 2, &io_done(7, 0, 0, &[])).cause, 2);
    assert_eq!(judge(&mut table, 2, &io_done(7, 0, 0, &[])).cause, 1);
}

#[test]
fn payloads_of_requests() {
    let mut table = ready();
    let mut control = words(&[0x4000_0004, 0, 0x103, 0, 3]);
    control.extend([1, 2, 3]);
    control.extend(words(&[4, 1]));
    assert_eq!(table.payload(0, 1, &control), [1, 2, 3]);
    assert_eq!(table.payload(0, 1, &bulk_out(2, &[4, 5])), [4, 5]);
    assert!(table.payload(0, 1, &bulk_in(2, 4)).is_empty());
    assert!(table.payload(0, 2, &bulk_out(2, &[4, 5])).is_empty());
    assert!(table.payload(8, 1, &bulk_out(2, &[4, 5])).is_empty());
    judge(&mut table, 1, &bulk_out(2, &[4, 5]));
    assert!(table.payload(0, 1, &bulk_out(2, &[4, 5])).is_empty());
}
