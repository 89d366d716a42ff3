//! 02 R-1, the writer: messages worked out by hand from 000 and 01, and what
//! holds for all calls, chosen and drawn.

mod common;

use common::*;
use second::body::{Body, NewDevice, Text, UrbResult};
use second::calls::{self, Call, FILL, MOST_LENT};
use second::compose;
use second::kinds::{Kind, CLIENT, LINES, SERVER};
use second::rebuild::{fields, kind_of};
use second::table::Table;
use second::urb::{Interface, Pipe, Structure, Urb};
use second::writer::{write_interface, Message, Refusal};
use second::{chosen, drawn};

fn written(message: &Message) -> Vec<u8> {
    let mut room = [FILL; 400];
    let count = message.write(&mut room).expect("written");
    assert!(room[count..].iter().all(|byte| *byte == FILL));
    room[..count].to_vec()
}

fn message(interface: u32, message_id: u32, body: Body) -> Message {
    Message {
        interface,
        message_id,
        body,
    }
}

fn bulk<'m>(request: u32, handle: u32, flags: u32) -> Urb<'m> {
    Urb {
        function: 9,
        request,
        no_ack: false,
        structure: Structure::BulkOrInterrupt { handle, flags },
    }
}

const NO_MORE: UrbResult = UrbResult {
    status: 0,
    more: &[],
};

#[test]
fn c1_and_c2() {
    let body = Body::TransferIn {
        urb: bulk(7, 0x11, 3),
        out_size: 64,
    };
    assert_eq!(written(&message(4, 1, body)), hex(C1));
    let body = Body::UrbCompletion {
        request: 7,
        result: NO_MORE,
        hresult: 0,
        data: &[0xAA, 0xBB],
    };
    assert_eq!(written(&message(5, 2, body)), hex(C2));
}

#[test]
fn the_examples_of_000() {
    // 4.1.1, with the interface of each side by 01's table.
    for (server, first) in [(true, "03000040"), (false, "02000040")] {
        let body = Body::Created {
            server,
            major: 1,
            minor: 0,
            capabilities: 0,
        };
        let wanted = format!("{first} 00000000 00010000 01000000 00000000 00000000");
        assert_eq!(written(&message(0, 0, body)), hex(&wanted));
    }
    // 4.1.2 to 4.1.5 use interface 0, which 01 bars, and here 6.
    let body = Body::Io {
        internal: true,
        code: 0x0022_4000,
        input: &[],
        out_size: 4,
        request: 0,
    };
    let wanted = "06000040 00000000 03010000 00402200 00000000 04000000 00000000";
    assert_eq!(written(&message(6, 0, body)), hex(wanted));
    let body = Body::IoCompletion {
        request: 0,
        hresult: 0,
        information: 4,
        data: &[0x53, 0x4B, 0x5F, 0x1A],
    };
    let wanted = "06000040 00000000 00010000 00000000 00000000 04000000 04000000 534b5f1a";
    assert_eq!(written(&message(6, 0, body)), hex(wanted));
    let body = Body::TransferIn {
        urb: bulk(2, 0xFFFF_0002, 3),
        out_size: 0x32,
    };
    let wanted = "06000040 00000000 05010000 10000000 10000900 02000000 0200ffff 03000000 32000000";
    assert_eq!(written(&message(6, 0, body)), hex(wanted));
    // 4.1.5 has 9 in the filler, where the writer puts 0.
    let data: Vec<u8> = (0..0x32)
        .map(|at| if at % 4 == 0 { at / 4 } else { 0 })
        .collect();
    let body = Body::UrbCompletion {
        request: 2,
        result: NO_MORE,
        hresult: 0,
        data: &data,
    };
    let mut wanted = hex("06000040 00000000 01010000 02000000 08000000
         0800 0000 00000000 00000000 32000000");
    wanted.extend(&data);
    assert_eq!(written(&message(6, 0, body)), wanted);
}

#[test]
fn setup_and_small_messages() {
    let small: [(Body, &str); 9] = [
        (
            Body::CapabilityRequest { value: 1 },
            "00000000 09000000 00010000 01000000",
        ),
        (
            Body::CapabilityResponse {
                value: 1,
                result: 0x7FFF_FFFF,
            },
            "00000000 09000000 01000000 ffffff7f",
        ),
        (Body::AddVirtualChannel, "01000040 09000000 00010000"),
        (
            Body::RegisterCallback {
                count: 1,
                callback: Some(0xC000_0005),
            },
            "04000040 09000000 01010000 01000000 050000c0",
        ),
        (
            Body::RegisterCallback {
                count: 0,
                callback: None,
            },
            "04000040 09000000 01010000 00000000",
        ),
        (
            Body::Cancel {
                request: 0xFFFF_FFFF,
            },
            "04000040 09000000 00010000 ffffffff",
        ),
        (
            Body::Retract { reason: 1 },
            "04000040 09000000 07010000 01000000",
        ),
        (
            Body::Io {
                internal: false,
                code: 0x0022_0003,
                input: &[1, 2, 3],
                out_size: 0xFFFF_FFFF,
                request: 8,
            },
            "04000040 09000000 02010000 03002200 03000000 010203 ffffffff 08000000",
        ),
        (
            Body::UrbCompletionNoData {
                request: 7,
                result: UrbResult {
                    status: 0xC000_0011,
                    more: &[0x11, 0x22, 0x33, 0x44],
                },
                hresult: 0x8007_001F,
                size: 64,
            },
            "04000040 09000000 02010000 07000000 0c000000
             0c00 0000 110000c0 11223344 1f000780 40000000",
        ),
    ];
    for (body, wanted) in small {
        assert_eq!(written(&message(4, 9, body)), hex(wanted));
    }
}

#[test]
fn a_device_with_its_texts_counted_in_units() {
    let device = NewDevice {
        devices: 1,
        interface: 4,
        instance_id: Text(&[0x41, 0, 0, 0]),
        hardware_ids: Text(&[0x41, 0, 0, 0, 0, 0]),
        compatible_ids: Text(&[]),
        container_id: Text(&[0, 0]),
        cb_size: 28,
        bus_version: 2,
        usbdi_version: 0x600,
        usb_version: 0x200,
        host: 0,
        speed: 1,
        no_ack_ms: 10,
    };
    let message = message(0, 5, Body::AddDevice(device));
    assert_eq!(written(&message), add_device(10));
}

#[test]
fn transfers_with_lists() {
    let pipe = Pipe {
        max_packet: 0x40,
        max_transfer: 0x1000,
        flags: 2,
    };
    let with_pipe = Interface {
        pipes_expected: 3,
        number: 1,
        alternate: 2,
        pipes: vec![pipe],
    };
    let without = Interface {
        pipes_expected: 0xFFFF,
        number: 0xFE,
        alternate: 0xFD,
        pipes: Vec::new(),
    };
    let one = "1800 0300 01 02 0000 01000000  4000 0000 00100000 02000000";
    let other = "0c00 ffff fe fd 0000 00000000";
    let mut room = [FILL; 30];
    assert_eq!(write_interface(&with_pipe, &mut room), Ok(24));
    assert_eq!(room[..24], hex(one));
    assert_eq!(room[24..], [FILL; 6]);
    assert_eq!(
        write_interface(&with_pipe, &mut room[..23]),
        Err(Refusal::Room)
    );

    let configuration = Urb {
        function: 0,
        request: 7,
        no_ack: false,
        structure: Structure::SelectConfiguration {
            descriptor_flag: 0x80,
            count: 2,
            interfaces: vec![with_pipe.clone(), without],
            descriptor: &[9, 2, 3, 4, 5, 6, 7, 8, 9],
        },
    };
    let body = Body::TransferIn {
        urb: configuration,
        out_size: 0,
    };
    // 16 + 24 + 12 + 9 are 61.
    let wanted = format!(
        "04000040 01000000 05010000 3d000000
         3d00 0000 07000000 80 000000 02000000 {one} {other} 090203040506070809 00000000"
    );
    assert_eq!(written(&message(4, 1, body)), hex(&wanted));

    let select = Urb {
        function: 1,
        request: 8,
        no_ack: false,
        structure: Structure::SelectInterface {
            configuration: 0x1122_3344,
            interfaces: vec![with_pipe],
        },
    };
    let body = Body::TransferIn {
        urb: select,
        out_size: 0,
    };
    let wanted =
        format!("04000040 01000000 05010000 24000000 2400 0100 08000000 44332211 {one} 00000000");
    assert_eq!(written(&message(4, 1, body)), hex(&wanted));

    let packet = [1, 0, 0, 0, 2, 0, 0, 0, 3, 0, 0, 0];
    let isoch = Urb {
        function: 0xA,
        request: 0x7FFF_FFFF,
        no_ack: true,
        structure: Structure::Isoch {
            handle: 0x11,
            flags: 2,
            start_frame: 3,
            error_count: 5,
            packets: &packet,
        },
    };
    let body = Body::TransferOut {
        urb: isoch,
        data: &[0xDD],
    };
    let wanted = "04000040 01000000 06010000 28000000 2800 0a00 ffffffff
         11000000 02000000 03000000 01000000 05000000
         01000000 02000000 03000000 01000000 dd";
    assert_eq!(written(&message(4, 1, body)), hex(wanted));

    let control = Urb {
        function: 8,
        request: 9,
        no_ack: false,
        structure: Structure::Control {
            handle: 0x11,
            flags: 3,
            setup: &[0x80, 6, 0, 1, 0, 0, 18, 0],
        },
    };
    let body = Body::TransferOut {
        urb: control,
        data: &[],
    };
    let wanted = "04000040 01000000 06010000 18000000 1800 0800 09000000
         11000000 03000000 8006000100001200 00000000";
    assert_eq!(written(&message(4, 1, body)), hex(wanted));
    for (function, size) in [(2, "0c000000 0c00 0200"), (0x1E, "0c000000 0c00 1e00")] {
        let pipe = Urb {
            function,
            request: 9,
            no_ack: false,
            structure: Structure::Pipe { handle: 0x11 },
        };
        let body = Body::TransferIn {
            urb: pipe,
            out_size: 0,
        };
        let wanted = format!("04000040 01000000 05010000 {size} 09000000 11000000 00000000");
        assert_eq!(written(&message(4, 1, body)), hex(&wanted));
    }
}

fn all_calls() -> Vec<Call> {
    let mut all = chosen::calls();
    for seed in 0..8 {
        all.extend(drawn::calls(seed, 4000, true));
    }
    all
}

fn in_room(call: &Call, room: u32) -> Call {
    Call {
        room,
        ..call.clone()
    }
}

/// A channel on which no answer from 3 to 8 is due to where it stands.
fn allowing(call: &Call, kind: Kind) -> (Table, u8) {
    let line = LINES
        .iter()
        .find(|line| line.kind == kind)
        .expect("a line for each kind");
    let mut table = Table::open(1);
    let channel = &mut table.channels[0];
    channel.phase = line.before;
    channel.no_ack_ms = 10;
    if call.kind >= 7 {
        channel.device = Some(call.interface);
        channel.callback = Some(call.interface);
    }
    (table, if line.side == SERVER { SERVER } else { CLIENT })
}

#[test]
fn what_is_written_is_read_back_and_the_rest_left_alone() {
    let mut answers = [[0; 3]; 18];
    for call in all_calls() {
        let done = call.perform();
        assert_eq!(done.buffer.len(), call.room as usize);
        assert!(done.buffer[done.written..].iter().all(|byte| *byte == FILL));
        let roomy = in_room(&call, MOST_LENT).perform();
        let column = match done.answer {
            0 => {
                let bytes = &done.buffer[..done.written];
                assert_eq!(bytes, &roomy.buffer[..roomy.written]);
                read_back(&call, bytes);
                0
            }
            15 => {
                assert_eq!((done.written, roomy.answer), (0, 15));
                1
            }
            16 => {
                assert_eq!((done.written, roomy.answer), (0, 0));
                assert!(roomy.written > call.room as usize);
                2
            }
            other => panic!("answer {other}"),
        };
        answers[call.kind as usize][column] += 1;
    }
    for (kind, [accepted, field, room]) in answers.into_iter().enumerate() {
        // Kind 12 is a kind 11 with NoAck, and a kind 5 has no field.
        assert_eq!(accepted > 0, kind != 12, "kind {kind}");
        assert_eq!(field > 0, kind != 12 && kind != 5, "kind {kind}");
        assert_eq!(room > 0, kind != 12, "kind {kind}");
    }
}

fn read_back(call: &Call, bytes: &[u8]) {
    if call.kind == 0 {
        let list = Interface::list(bytes).expect("whole interfaces");
        assert_eq!(Some(list), call.numbered_interface().map(|one| vec![one]));
        return;
    }
    let kind = kind_of(call.kind as u8).expect("a kind");
    let mut again = fields(kind, bytes).expect("sizes that add up");
    if call.kind <= 6 {
        // A default interface is not the one that was given.
        again.interface = call.interface;
    }
    assert_eq!(Some(again), call.message());
    let (mut table, side) = allowing(call, kind);
    let entry = table.judge(0, side, 0, bytes).expect("a usable number");
    assert!(matches!(entry.answer, 0 | 11), "answer {}", entry.answer);
}

fn part(call: &Call, at: usize) -> Option<&[u8]> {
    let start = call.fields[at] as usize;
    call.lent
        .get(start..start.checked_add(call.fields[at + 1] as usize)?)
}

/// The TsUrb put together without a look at what it says.
fn blind_urb(call: &Call) -> Option<Vec<u8>> {
    let f = &call.fields;
    let structures: [&[u32]; 7] = [&[0], &[1], &[7], &[2, 0x1E], &[9], &[8], &[10]];
    if !structures[f[2] as usize].contains(&f[3]) || f[4] >> 31 != 0 {
        return None;
    }
    let rest = match f[2] {
        0 => {
            let flag = u8::try_from(f[6]).ok()?;
            let list = part(call, 8)?;
            let descriptor = part(call, 10)?;
            // Where the list ends is not told by the bytes of a message, so a
            // part of the list could pass for the descriptor.
            let counted = Interface::list(list)?.len();
            if counted != f[7] as usize {
                return None;
            }
            compose::configuration(flag, [1, 2, 3], f[7], list, descriptor)
        }
        1 => {
            let mut rest = f[6].to_le_bytes().to_vec();
            rest.extend(part(call, 7)?);
            rest
        }
        2 => Vec::new(),
        3 => words(&f[6..7]),
        4 => words(&f[6..8]),
        5 => {
            let mut rest = words(&f[6..8]);
            rest.extend(part(call, 8)?);
            rest
        }
        _ => {
            let packets = part(call, 10)?;
            let count = packets.len() as u32 / 12;
            let mut rest = words(&[f[6], f[7], f[8], count, f[9]]);
            rest.extend(packets);
            rest
        }
    };
    (rest.len() < 65_528).then(|| compose::urb(f[3] as u16, f[4] | f[5] << 31, &rest))
}

/// The message put together by `compose`, which holds nothing to a value.
fn blind(call: &Call) -> Option<Vec<u8>> {
    let f = &call.fields;
    let line = LINES
        .iter()
        .find(|line| u32::from(line.kind.number()) == call.kind)?;
    let given = call.kind >= 7;
    if given && (call.interface < 4 || call.interface >> 30 != 0) {
        return None;
    }
    let own = [0, 0, 0, 3, 2, 1, 1];
    let interface = if given {
        call.interface
    } else {
        own[call.kind as usize]
    };
    let head = compose::Head {
        first: compose::first_word(interface, line.mask),
        message_id: call.message_id,
        function: line.function.unwrap_or(0),
    };
    let plain = |body: &[u32]| compose::words(head.first, head.message_id, head.function, body);
    let size = |bytes: &[u8]| bytes.len() as u32;
    let result = || {
        let more = part(call, 2)?;
        let length = u16::try_from(8 + more.len()).ok()?;
        Some(compose::result(length, 0x7777, f[1], more))
    };
    Some(match call.kind {
        1 | 13 | 14 => plain(&f[..1]),
        2 => words(&[head.first, head.message_id, f[0], f[1]]),
        3 | 4 => plain(&f[..3]),
        5 => plain(&[]),
        6 => {
            let mut out = plain(&f[..2]);
            for at in [2, 4, 6, 8] {
                let text = part(call, at)?;
                if text.len() % 2 != 0 {
                    return None;
                }
                out.extend((text.len() as u32 / 2).to_le_bytes());
                out.extend(text);
            }
            out.extend(words(&f[10..17]));
            out
        }
        7 if f[1] == 0 => plain(&f[..1]),
        7 => plain(&[f[0], f[2]]),
        8 | 9 => {
            let input = part(call, 1)?;
            compose::io_control(head, f[0], size(input), input, f[3], f[4])
        }
        10 => {
            let urb = blind_urb(call)?;
            compose::transfer(head, size(&urb), &urb, f[0], &[])
        }
        11 => {
            let urb = blind_urb(call)?;
            let data = part(call, 0)?;
            compose::transfer(head, size(&urb), &urb, size(data), data)
        }
        15 => {
            let data = part(call, 3)?;
            compose::io_completion(head, f[0], f[1], f[2], size(data), data)
        }
        16 => {
            let (result, data) = (result()?, part(call, 5)?);
            compose::urb_completion(head, f[0], size(&result), &result, f[4], size(data), data)
        }
        _ => {
            let result = result()?;
            compose::urb_completion(head, f[0], size(&result), &result, f[4], f[5], &[])
        }
    })
}

/// 15 is exactly what the checks 4, 7 and 8 of a reader would refuse.
#[test]
fn refusals_of_the_writer_are_those_of_the_reader() {
    let mut refused_by_reading = 0;
    for call in all_calls() {
        if call.kind == 0 {
            continue;
        }
        let done = in_room(&call, MOST_LENT).perform();
        let kind = kind_of(call.kind as u8).expect("a kind");
        let answer = blind(&call).map_or(15, |bytes| {
            let (mut table, side) = allowing(&call, kind);
            let entry = table.judge(0, side, 0, &bytes).expect("a usable number");
            match entry.answer {
                0 | 11 => 0,
                4 | 7 | 8 => {
                    refused_by_reading += 1;
                    15
                }
                other => panic!("answer {other}"),
            }
        });
        assert_eq!(done.answer, answer, "{call:?}");
    }
    assert!(refused_by_reading > 1000);
}

#[test]
fn the_file_of_calls() {
    let chosen = chosen::calls();
    let bytes = calls::file(&chosen);
    assert_eq!(calls::read(&bytes).as_ref(), Ok(&chosen));
    assert!(bytes.len() < 1_050_000);
    let printed = calls::print(&chosen);
    assert!(printed.len() < 3_000_000);
    assert_eq!(printed.lines().count(), chosen.len());
    let one = calls::file(&chosen[..1]);
    for cut in 1..one.len() {
        assert!(calls::read(&one[..cut]).is_err());
    }
    for kind in [12, 18, u32::MAX] {
        let mut other = one.clone();
        other[..4].copy_from_slice(&kind.to_le_bytes());
        assert!(calls::read(&other).is_err());
    }
    assert_eq!(calls::print(&[]), "");
}

#[test]
fn a_line_of_the_print() {
    let call = Call {
        kind: 14,
        room: 18,
        interface: 4,
        message_id: 1,
        fields: [1; 20],
        lent: Vec::new(),
    };
    let wanted = "0 16 04000040010000000701000001000000a5a5\n";
    assert_eq!(calls::print(std::slice::from_ref(&call)), wanted);
    assert_eq!(
        calls::print(&[in_room(&call, 15)]),
        format!("16 0 {}\n", "a5".repeat(15))
    );
    assert_eq!(calls::print(&[in_room(&call, 0)]), "16 0 \n");
    let refused = Call {
        interface: 3,
        ..in_room(&call, 2)
    };
    assert_eq!(calls::print(&[refused]), "15 0 a5a5\n");
}

#[test]
fn drawn_calls_are_a_function_of_their_seed() {
    assert_eq!(drawn::calls(3, 200, true), drawn::calls(3, 200, true));
    assert_ne!(drawn::calls(3, 200, true), drawn::calls(4, 200, true));
    let calls = drawn::calls(5, 6000, true);
    let count = |answer| {
        calls
            .iter()
            .filter(|call| call.perform().answer == answer)
            .count()
    };
    assert!(count(0) > 2000 && count(15) > 1000 && count(16) > 500);
    let sizes: Vec<u32> = calls.iter().filter_map(Call::size).collect();
    assert!(sizes.iter().any(|size| *size >= 65_530));
}
