//! Calls of the writer chosen by hand: for each kind its smallest and largest
//! message, each cause of a 15 on both sides of its limit and one at a time,
//! rooms around the size of the message, and parts around the end of the lent
//! bytes.

use crate::calls::{Call, FIELDS, INTERFACE_CALL};
use crate::compose::{interface, Put};
use crate::drawn;
use crate::urb::{
    ABORT_PIPE, BULK_OR_INTERRUPT_TRANSFER, CONTROL_TRANSFER, GET_CURRENT_FRAME_NUMBER,
    ISOCH_TRANSFER, SELECT_CONFIGURATION, SELECT_INTERFACE, SYNC_RESET_PIPE_AND_CLEAR_STALL,
};

const TOP: u32 = 0x8000_0000;
const MOST: u32 = u32::MAX;
const DEVICE: u32 = 4;
const CALLBACK: u32 = 5;
const MESSAGE_ID: u32 = 0x0A0B_0C0D;
/// The room of a call that is refused: enough to see that nothing is written.
const REFUSED_ROOM: u32 = 20;

/// Which structure a TsUrb is given as (F2), and its functions.
pub const STRUCTURES: [(u32, &[u16]); 7] = [
    (0, &[SELECT_CONFIGURATION]),
    (1, &[SELECT_INTERFACE]),
    (2, &[GET_CURRENT_FRAME_NUMBER]),
    (3, &[ABORT_PIPE, SYNC_RESET_PIPE_AND_CLEAR_STALL]),
    (4, &[BULK_OR_INTERRUPT_TRANSFER]),
    (5, &[CONTROL_TRANSFER]),
    (6, &[ISOCH_TRANSFER]),
];

/// Ids around the default interfaces and around 30 bits.
const GIVEN_IDS: [u32; 18] = [
    0,
    1,
    2,
    3,
    4,
    5,
    0x3FFF_FFFF,
    0x4000_0000,
    0x4000_0003,
    0x4000_0004,
    0x7FFF_FFFF,
    0x8000_0000,
    0x8000_0003,
    0x8000_0004,
    0xC000_0000,
    0xC000_0003,
    0xC000_0004,
    0xFFFF_FFFF,
];

/// Bytes that tell their place.
pub fn counted(count: usize) -> Vec<u8> {
    (0..count).map(|at| (at % 251) as u8).collect()
}

fn call(kind: u32, fields: &[u32], lent: &[u8]) -> Call {
    let mut all = [0; FIELDS];
    all[..fields.len()].copy_from_slice(fields);
    Call {
        kind,
        room: 0,
        interface: if kind >= 15 { CALLBACK } else { DEVICE },
        message_id: MESSAGE_ID,
        fields: all,
        lent: lent.to_vec(),
    }
}

impl Call {
    fn with(&self, at: usize, value: u32) -> Call {
        let mut other = self.clone();
        other.fields[at] = value;
        other
    }

    fn with_part(&self, at: usize, start: u32, size: u32) -> Call {
        self.with(at, start).with(at + 1, size)
    }

    fn with_lent(&self, lent: &[u8]) -> Call {
        Call {
            lent: lent.to_vec(),
            ..self.clone()
        }
    }

    fn in_room(&self, room: u32) -> Call {
        Call {
            room,
            ..self.clone()
        }
    }

    /// The size of the message, were there room for it; `None` where refused.
    pub fn size(&self) -> Option<u32> {
        let done = self.in_room(crate::calls::MOST_LENT).perform();
        (done.answer == 0).then_some(done.written as u32)
    }
}

#[derive(Default)]
struct Sheet {
    calls: Vec<Call>,
}

impl Sheet {
    /// In a room that is as large as the message or some bytes larger.
    fn add(&mut self, call: &Call) {
        let room = match call.size() {
            Some(size) => size + [0, 3, 1][self.calls.len() % 3],
            None => REFUSED_ROOM,
        };
        self.calls.push(call.in_room(room));
    }

    fn values(&mut self, call: &Call, at: usize, values: &[u32]) {
        for value in values {
            self.add(&call.with(at, *value));
        }
    }

    /// Rooms around the size of an accepted call's message.
    fn rooms(&mut self, call: &Call) {
        let size = call.size().unwrap_or(REFUSED_ROOM);
        for room in [size, size.saturating_sub(1), 0, 1, size + 1, size + 33] {
            self.calls.push(call.in_room(room));
        }
    }

    /// A refused call in rooms where 16 would be due, too: 15 comes first.
    fn both(&mut self, call: &Call) {
        for room in [0, 7, 11] {
            self.calls.push(call.in_room(room));
        }
    }

    /// The part at field `at` of an accepted call, moved to the very end of the
    /// lent bytes and over it.
    fn ends(&mut self, call: &Call, at: usize) {
        let (start, size) = (call.fields[at], call.fields[at + 1]);
        let part = &call.lent[start as usize..(start + size) as usize];
        let mut lent = call.lent.clone();
        let end = lent.len() as u32;
        lent.extend(part);
        let call = call.with_lent(&lent);
        let whole = end + size;
        self.add(&call.with_part(at, end, size));
        self.add(&call.with_part(at, end + 1, size));
        // Its last byte is one past the end, and everything before it is there.
        let mut shorter = lent;
        shorter.truncate(whole.saturating_sub(1) as usize);
        self.add(&call.with_lent(&shorter).with_part(at, end, size));
        self.add(&call.with_part(at, MOST, size));
        self.add(&call.with_part(at, end, MOST));
        self.add(&call.with_part(at, MOST, MOST));
        // The sum of start and size is small in 32 bits.
        self.add(&call.with_part(at, 0u32.wrapping_sub(size), size));
        self.add(&call.with_part(at, end, 0u32.wrapping_sub(end)));
        self.add(&call.with_part(at, TOP, TOP));
    }

    /// An empty part has to lie in the lent bytes, too.
    fn empties(&mut self, call: &Call, at: usize) {
        let end = call.lent.len() as u32;
        for start in [0, end / 2, end, end + 1, end + 2, TOP, MOST] {
            self.add(&call.with_part(at, start, 0));
        }
    }

    /// The interface number for the header.
    fn headers(&mut self, call: &Call) {
        for interface in GIVEN_IDS {
            self.add(&Call {
                interface,
                ..call.clone()
            });
        }
    }

    /// All that the kind has no use for is set: the answer is the same.
    fn noise(&mut self, call: &Call, used: usize) {
        let mut other = call.clone();
        other.fields[used..].fill(MOST);
        if call.kind <= 6 {
            other.interface = MOST;
        }
        other.lent.extend([9, 9, 9]);
        self.add(&other);
        other.interface = if call.kind <= 6 { 3 } else { call.interface };
        other.fields[used..].fill(TOP);
        self.add(&other);
    }
}

/// A call of each kind that is accepted, and how many fields it uses.
fn samples() -> Vec<(Call, usize)> {
    let mut all = vec![
        (call(1, &[1], &[]), 1),
        (call(2, &[1, 0], &[]), 2),
        (call(3, &[1, 0, 0], &[]), 3),
        (call(4, &[1, 0, 0], &[]), 3),
        (call(5, &[], &[]), 0),
        (device(), 17),
        (call(7, &[1, 1, CALLBACK], &[]), 3),
        (call(7, &[0, 0], &[]), 2),
        (io(8), 5),
        (io(9), 5),
    ];
    for (which, functions) in STRUCTURES {
        all.push((transfer(10, which, functions[0]), urb_fields(which)));
    }
    for (which, functions) in &STRUCTURES[4..] {
        all.push((transfer(11, *which, functions[0]), urb_fields(*which)));
    }
    all.push((no_ack(), urb_fields(6)));
    all.push((call(13, &[7], &[]), 1));
    all.push((call(14, &[1], &[]), 1));
    all.push((io_completion(), 5));
    all.push((urb_completion(16), 7));
    all.push((urb_completion(17), 6));
    all
}

/// The first field behind those of this structure.
pub fn urb_fields(which: u32) -> usize {
    match which {
        0 | 6 => 12,
        1 => 9,
        2 => 6,
        3 => 7,
        4 => 8,
        _ => 10,
    }
}

fn units(text: &[u16]) -> Vec<u8> {
    text.iter().flat_map(|unit| unit.to_le_bytes()).collect()
}

/// "A"; "B" and "C"; "C" again, whose bytes are lent once; "D".
fn device() -> Call {
    let lent = units(&[0x41, 0, 0x42, 0, 0x43, 0, 0, 0x44, 0]);
    let fields = [
        1, DEVICE, 0, 4, 4, 10, 8, 6, 14, 4, 28, 2, 0x600, 0x200, 0, 1, 0,
    ];
    call(6, &fields, &lent)
}

fn io(kind: u32) -> Call {
    call(kind, &[0x0022_0003, 2, 5, 64, 0x1234], &counted(9))
}

fn io_completion() -> Call {
    call(15, &[0x1234, 0, 5, 1, 5], &counted(8))
}

/// For kind 17 the sixth field is OutputBufferSize and the seventh unused.
fn urb_completion(kind: u32) -> Call {
    let fields = [7, 0xC000_0011, 3, 4, 0x8007_001F, 1, 2];
    call(kind, &fields, &counted(10))
}

/// Interfaces of so many pipes each, with padding that is not zero.
fn interfaces(pipes: &[u32]) -> Vec<u8> {
    let mut out = Vec::new();
    for (at, count) in pipes.iter().enumerate() {
        let mut inside = Vec::new();
        for pipe in 0..*count {
            inside.put16(0x40 + pipe as u16);
            inside.put16(0xEEEE);
            inside.put32(0x1000 + pipe);
            inside.put32(pipe);
        }
        let settings = [*count as u8, 0x5A, at as u8, 1, 0xDD, 0xDD];
        out.extend(interface(
            (12 + 12 * count) as u16,
            settings,
            *count,
            &inside,
        ));
    }
    out
}

fn descriptor(count: usize) -> Vec<u8> {
    let mut bytes = counted(count.max(2));
    bytes[..2].copy_from_slice(&[9, 2]);
    bytes.truncate(count);
    bytes
}

/// Parts one behind the other, the first behind two bytes that no part has.
struct Parts {
    lent: Vec<u8>,
}

impl Parts {
    fn new() -> Parts {
        Parts {
            lent: vec![0xE1, 0xE2],
        }
    }

    fn put(&mut self, bytes: &[u8]) -> [u32; 2] {
        let start = self.lent.len() as u32;
        self.lent.extend(bytes);
        [start, bytes.len() as u32]
    }
}

/// A transfer of structure `which`: in with OutputBufferSize 0, out with four
/// bytes.
fn transfer(kind: u32, which: u32, function: u16) -> Call {
    let mut parts = Parts::new();
    let mut fields = if kind == 11 {
        parts.put(&[0xD0, 0xD1, 0xD2, 0xD3]).to_vec()
    } else {
        vec![0, 0]
    };
    fields.extend([which, u32::from(function), 7, 0]);
    match which {
        0 => {
            fields.extend([1, 2]);
            fields.extend(parts.put(&interfaces(&[2, 0])));
            fields.extend(parts.put(&descriptor(9)));
        }
        1 => {
            fields.push(0x1122_3344);
            fields.extend(parts.put(&interfaces(&[1])));
        }
        2 => {}
        3 => fields.push(0x11),
        4 => fields.extend([0x11, 3]),
        5 => {
            fields.extend([0x11, 3]);
            fields.extend(parts.put(&[0x80, 6, 0, 1, 0, 0, 18, 0]));
        }
        _ => {
            fields.extend([0x11, 3, 1000, 5]);
            fields.extend(parts.put(&counted(24)));
        }
    }
    call(kind, &fields, &parts.lent)
}

fn no_ack() -> Call {
    transfer(11, 6, ISOCH_TRANSFER).with(5, 1)
}

/// A select configuration of these interfaces and descriptor, flag as given.
fn configuration(flag: u32, count: u32, list: &[u8], descriptor: &[u8]) -> Call {
    let mut parts = Parts::new();
    let mut fields = vec![0, 0, 0, u32::from(SELECT_CONFIGURATION), 7, 0, flag, count];
    fields.extend(parts.put(list));
    fields.extend(parts.put(descriptor));
    call(10, &fields, &parts.lent)
}

fn select_interface(list: &[u8]) -> Call {
    let mut parts = Parts::new();
    let mut fields = vec![0, 0, 1, u32::from(SELECT_INTERFACE), 7, 0, 0x1122_3344];
    fields.extend(parts.put(list));
    call(10, &fields, &parts.lent)
}

fn isoch(kind: u32, packets: usize) -> Call {
    let mut parts = Parts::new();
    let mut fields = vec![0, 0, 6, u32::from(ISOCH_TRANSFER), 7, 0, 0x11, 3, 1000, 5];
    fields.extend(parts.put(&counted(packets)));
    call(kind, &fields, &parts.lent)
}

fn numbered(numbers: &[u32]) -> Call {
    let mut lent = Vec::new();
    for number in numbers {
        lent.put32(*number);
    }
    call(INTERFACE_CALL, &[], &lent)
}

/// An interface of so many pipes as plain numbers.
fn rows(pipes: u32) -> Vec<u32> {
    let mut numbers = vec![pipes, 1, 2];
    for pipe in 0..pipes {
        numbers.extend([0x40 + pipe, 0x1_0000 + pipe, pipe]);
    }
    numbers
}

fn setup(sheet: &mut Sheet) {
    let one = [0, 1, 2, 3, 0x101, 0x1_0001, TOP, TOP | 1, MOST];
    sheet.values(&call(1, &[1], &[]), 0, &one);
    let response = call(2, &[1, 0], &[]);
    sheet.values(&response, 0, &one);
    sheet.values(&response, 1, &[0, 1, 0x7FFF_FFFF, TOP, TOP | 1, MOST]);
    for kind in [3, 4] {
        let created = call(kind, &[1, 0, 0], &[]);
        sheet.values(&created, 0, &one);
        sheet.values(&created, 1, &[0, 1, 0x100, TOP, MOST]);
        sheet.values(&created, 2, &[0, 1, 0x100, TOP, MOST]);
    }
    for kind in 1..=5 {
        let plain = call(kind, &[1, 0, 0], &[]);
        for message_id in [0, 1, TOP, MOST] {
            sheet.add(&Call {
                message_id,
                ..plain.clone()
            });
        }
    }
}

fn capabilities(sheet: &mut Sheet) {
    let base = device();
    sheet.values(&base, 0, &[0, 1, 2, 0x101, MOST]);
    sheet.values(&base, 1, &GIVEN_IDS);
    sheet.values(&base, 10, &[0, 27, 28, 29, 0x11C, MOST]);
    sheet.values(&base, 11, &[0, 1, 2, 3, 0x102, MOST]);
    sheet.values(
        &base,
        12,
        &[0, 0x4FF, 0x500, 0x501, 0x5FF, 0x600, 0x601, MOST],
    );
    sheet.values(
        &base,
        13,
        &[
            0, 0xFF, 0x100, 0x101, 0x10F, 0x110, 0x111, 0x1FF, 0x200, 0x201, MOST,
        ],
    );
    sheet.values(&base, 14, &[0, 1, TOP, MOST]);
    sheet.values(&base, 15, &[0, 1, 2, 0x101, MOST]);
    for bus in [0, 1, 2] {
        sheet.values(&base.with(11, bus), 15, &[0, 1, 2]);
    }
    sheet.values(&base, 16, &[0, 1, 9, 10, 11, 511, 512, 513, 0x1_000A, MOST]);
}

fn texts(sheet: &mut Sheet) {
    let base = device();
    let closings: [&[u16]; 16] = [
        &[0],
        &[0x41],
        &[0x41, 0],
        &[0, 0],
        &[0, 0x41],
        &[0x41, 0x42],
        &[0x41, 0, 0],
        &[0x41, 0x42, 0],
        &[0x41, 0, 0x42],
        &[0, 0x42, 0],
        &[0, 0, 0],
        &[0x41, 0x0100],
        &[0x41, 0x0001],
        &[0x41, 0x0100, 0],
        &[0x41, 0x0001, 0],
        &[0x41, 0, 0x8000],
    ];
    for at in [2, 4, 6, 8] {
        let text = |bytes: &[u8]| {
            let mut lent = base.lent.clone();
            lent.extend(bytes);
            base.with_part(at, base.lent.len() as u32, bytes.len() as u32)
                .with_lent(&lent)
        };
        for closing in closings {
            sheet.add(&text(&units(closing)));
        }
        // Half a unit too much or too little, all of it zero.
        for count in [1, 3, 5, 1023, 1025] {
            sheet.add(&text(&vec![0; count]));
        }
        for count in [511, 512, 513] {
            let mut long = vec![0x61; count];
            long[count - 2..].fill(0);
            sheet.add(&text(&units(&long)));
        }
        let mut open = vec![0x61; 512];
        open[510] = 0;
        sheet.add(&text(&units(&open)));
        sheet.ends(&base, at);
        sheet.empties(&base, at);
    }
    // No text at all, and nothing lent; then the four longest there are.
    let none = base
        .with_part(2, 0, 0)
        .with_part(4, 0, 0)
        .with_part(6, 0, 0)
        .with_part(8, 0, 0)
        .with_lent(&[]);
    sheet.rooms(&none);
    for at in [2, 4, 6, 8] {
        sheet.add(&none.with_part(at, 1, 0));
        sheet.add(&none.with_part(at, 0, 2));
    }
    let mut long = vec![0x7A; 512];
    long[510..].fill(0);
    let mut longest = base.with_lent(&units(&long));
    for at in [2, 4, 6, 8] {
        longest = longest.with_part(at, 0, 1024);
    }
    sheet.rooms(&longest);
}

fn callbacks(sheet: &mut Sheet) {
    let given = call(7, &[1, 1, CALLBACK], &[]);
    sheet.values(&given, 0, &[0, 1, 2, 3, 0x100, TOP, MOST]);
    sheet.values(&given.with(1, 0), 0, &[0, 1, 2, 0x100, TOP, MOST]);
    sheet.values(&given, 2, &GIVEN_IDS);
    // Not given, so what stands in its place is not looked at.
    sheet.values(&call(7, &[0, 0, 0], &[]), 2, &GIVEN_IDS);
}

fn io_requests(sheet: &mut Sheet) {
    for kind in [8, 9] {
        let base = io(kind);
        for at in [0, 3, 4] {
            sheet.values(&base, at, &[0, 1, 0x7FFF_FFFF, TOP, MOST]);
        }
        sheet.ends(&base, 1);
        sheet.empties(&base, 1);
        sheet.rooms(&base.with_part(1, 0, 0).with_lent(&[]));
        sheet.add(&base.with_part(1, 0, 9));
    }
}

fn functions(sheet: &mut Sheet) {
    let tried = [
        0x0000, 0x0001, 0x0002, 0x0003, 0x0006, 0x0007, 0x0008, 0x0009, 0x000A, 0x000B, 0x001D,
        0x001E, 0x001F, 0x0032, 0x0102, 0x1E00, 0xFFFF, MOST,
    ];
    for (which, functions) in STRUCTURES {
        for kind in [10, 11] {
            let base = transfer(kind, which, functions[0]);
            sheet.values(&base, 3, &tried);
            for function in functions {
                // The low half is right and the number is too wide.
                let wide = 0x1_0000 | u32::from(*function);
                sheet.add(&base.with(3, wide));
                let own = base.with(3, u32::from(*function));
                sheet.values(&own, 4, &[0, 0x7FFF_FFFF, TOP, TOP | 7, MOST]);
                sheet.add(&own.with(5, 1));
                if kind == 10 {
                    sheet.values(&own, 0, &[0, 1, 64, TOP, MOST]);
                } else {
                    sheet.add(&own.with_part(0, 0, 0));
                    sheet.add(&own.with_part(0, 2, 1));
                }
                for at in 6..urb_fields(which).min(8) {
                    if which >= 3 {
                        sheet.values(&own, at, &[0, TOP, MOST]);
                    }
                }
            }
        }
    }
    // NoAck beside each end of the request's 31 bits.
    sheet.values(&no_ack(), 4, &[0, 1, 0x7FFF_FFFF, TOP, MOST]);
}

fn descriptors(sheet: &mut Sheet) {
    let list = interfaces(&[1]);
    for flag in [
        0, 1, 2, 0x7F, 0x80, 0xFE, 0xFF, 0x100, 0x101, 0x1_0000, TOP, MOST,
    ] {
        sheet.add(&configuration(flag, 1, &list, &descriptor(9)));
        sheet.add(&configuration(flag, 1, &list, &[]));
    }
    for count in [1, 2, 8, 9, 10, 18, 255] {
        sheet.add(&configuration(1, 1, &list, &descriptor(count)));
    }
    sheet.add(&configuration(0, 1, &list, &[9]));
    let starts = [
        [9, 2],
        [9, 1],
        [9, 3],
        [8, 2],
        [10, 2],
        [2, 9],
        [0, 0],
        [9, 0x82],
    ];
    for start in starts {
        let mut bytes = descriptor(12);
        bytes[..2].copy_from_slice(&start);
        sheet.add(&configuration(1, 1, &list, &bytes));
        sheet.add(&configuration(0xFF, 0, &[], &bytes));
    }
    let base = configuration(1, 1, &list, &descriptor(9));
    sheet.ends(&base, 8);
    sheet.ends(&base, 10);
    sheet.empties(&configuration(0, 1, &list, &[]), 10);
    sheet.empties(&configuration(0, 0, &[], &[]), 8);
    sheet.rooms(
        &configuration(0, 0, &[], &[])
            .with_part(8, 0, 0)
            .with_part(10, 0, 0)
            .with_lent(&[]),
    );
}

fn lists(sheet: &mut Sheet) {
    // NumInterfaces beside the interfaces there are.
    for there in [0u32, 1, 2, 31, 32, 33] {
        let list = interfaces(&vec![0; there as usize]);
        for said in [there, there + 1, there.wrapping_sub(1), there | 0x100, MOST] {
            sheet.add(&configuration(0, said, &list, &[]));
        }
    }
    for pipes in [0, 1, 29, 30, 31, 32] {
        sheet.add(&configuration(0, 1, &interfaces(&[pipes]), &[]));
        sheet.add(&select_interface(&interfaces(&[pipes])));
        sheet.add(&configuration(
            1,
            3,
            &interfaces(&[0, 2, pipes]),
            &descriptor(9),
        ));
        sheet.add(&configuration(0, 2, &interfaces(&[pipes, 1]), &[]));
    }
    // Length beside the pipe count; the last two fit in fewer bits alone.
    let spoilt = |length: u16, count: u32, pipes: usize| {
        interface(length, [1, 0, 0, 0, 0, 0], count, &counted(12 * pipes))
    };
    let crooked = [
        spoilt(24, 1, 1),
        spoilt(23, 1, 1),
        spoilt(25, 1, 1),
        spoilt(12, 1, 1),
        spoilt(36, 1, 1),
        spoilt(0, 1, 1),
        spoilt(24, 0, 1),
        spoilt(24, 2, 1),
        spoilt(24, 0, 0),
        spoilt(12, 1, 0),
        spoilt(36, 2, 1),
        spoilt(12, 0, 1),
        spoilt(24, 0x1_0001, 1),
        spoilt(12, 0x4000_0000, 0),
        spoilt(8, 0x1555_5555, 0),
        spoilt(8, 5461, 0),
    ];
    for list in &crooked {
        sheet.add(&select_interface(list));
        sheet.add(&configuration(0, 1, list, &[]));
        let mut second = interfaces(&[1]);
        second.extend(list);
        sheet.add(&configuration(0, 2, &second, &[]));
    }
    // The whole size: bytes short of a structure, or left over behind it.
    let whole = interfaces(&[1]);
    for count in [0, 1, 11, 12, 13, 23] {
        sheet.add(&select_interface(&whole[..count]));
        sheet.add(&configuration(0, 1, &whole[..count], &[]));
    }
    for more in [1, 11, 12] {
        let mut longer = whole.clone();
        longer.extend(vec![0; more]);
        sheet.add(&select_interface(&longer));
        sheet.add(&configuration(0, 1, &longer, &[]));
    }
    sheet.add(&select_interface(&interfaces(&[0, 0])));
    sheet.add(&select_interface(&interfaces(&[1, 1])));
    let base = select_interface(&whole);
    sheet.ends(&base, 7);
    sheet.empties(&base, 7);
    sheet.values(&base, 6, &[0, TOP, MOST]);
    sheet.rooms(&select_interface(&interfaces(&[0])));
    sheet.rooms(&select_interface(&interfaces(&[30])));
    // The most interfaces with the most pipes, and nothing behind them.
    sheet.add(&configuration(0, 32, &interfaces(&[30; 32]), &[]));
}

fn packets(sheet: &mut Sheet) {
    let control = transfer(10, 5, CONTROL_TRANSFER);
    for kind in [10, 11] {
        let base = transfer(kind, 5, CONTROL_TRANSFER);
        let mut lent = base.lent.clone();
        lent.extend(counted(20));
        let long = base.with_lent(&lent);
        for size in [0, 1, 7, 8, 9, 12, 16] {
            sheet.add(&long.with(9, size));
        }
        sheet.ends(&base, 8);
    }
    sheet.empties(&control, 8);
    for kind in [10, 11] {
        for size in [0, 1, 4, 8, 11, 12, 13, 16, 23, 24, 25, 120] {
            sheet.add(&isoch(kind, size));
        }
        sheet.ends(&isoch(kind, 12), 10);
        sheet.empties(&isoch(kind, 12), 10);
        for at in [8, 9] {
            sheet.values(&isoch(kind, 12), at, &[0, TOP, MOST]);
        }
    }
    // The most packets, and one more.
    for size in [12 * 1024, 12 * 1025] {
        sheet.add(&isoch(10, size));
        sheet.add(&isoch(11, size).with_part(0, 0, 3));
    }
    for which in [4, 5, 6] {
        let function = STRUCTURES[which as usize].1[0];
        let out = transfer(11, which, function);
        sheet.ends(&out, 0);
        sheet.empties(&out, 0);
    }
    sheet.ends(&no_ack(), 0);
    sheet.empties(&no_ack(), 0);
}

fn ends_of_requests(sheet: &mut Sheet) {
    let ids = [0, 7, 0x7FFF_FFFF, TOP, MOST];
    sheet.values(&call(13, &[7], &[]), 0, &ids);
    sheet.values(&call(14, &[1], &[]), 0, &[0, 1, 2, 0x101, TOP | 1, MOST]);
    let done = io_completion();
    sheet.values(&done, 0, &ids);
    // Sizes that disagree with these are a table's to refuse.
    sheet.values(
        &done,
        1,
        &[0, 1, 0x7FFF_FFFF, 0x8007_007A, 0x8007_001F, TOP, MOST],
    );
    sheet.values(&done, 2, &[0, 4, 6, TOP, MOST]);
    sheet.ends(&done, 3);
    sheet.empties(&done, 3);
    for kind in [16, 17] {
        let done = urb_completion(kind);
        for at in [0, 1, 4] {
            sheet.values(&done, at, &[0, 1, 0x7FFF_FFFF, TOP, MOST]);
        }
        for size in [0, 1, 2, 3, 7] {
            sheet.add(&done.with(3, size));
        }
        sheet.ends(&done, 2);
        sheet.empties(&done, 2);
    }
    let data = urb_completion(16);
    for size in [0, 1, 2, 9] {
        sheet.add(&data.with(6, size));
    }
    sheet.ends(&data, 5);
    // Without data it is refused wherever the empty part lies.
    sheet.empties(&data, 5);
    let plain = urb_completion(17);
    sheet.values(&plain, 5, &[0, 1, 0xFFFF, 0x1_0000, TOP, MOST]);
    sheet.add(&plain.with_part(2, 0, 0).with_lent(&[]));
}

fn numbered_interfaces(sheet: &mut Sheet) {
    for pipes in [0, 1, 2, 29, 30, 31, 32, 33, 100] {
        sheet.add(&numbered(&rows(pipes)));
    }
    sheet.rooms(&numbered(&rows(0)));
    sheet.rooms(&numbered(&rows(1)));
    sheet.rooms(&numbered(&rows(30)));
    sheet.both(&numbered(&rows(31)));
    sheet.both(&numbered(&[]));
    for count in 0..8 {
        sheet.add(&numbered(&rows(3)[..count]));
    }
    // What is left of a number is not used, whatever it holds.
    for count in [0, 1, 2, 3] {
        for whole in [0, 2, 3, 6] {
            let mut odd = numbered(&rows(3)[..whole]);
            odd.lent.extend(vec![0xFF; count]);
            sheet.add(&odd);
        }
    }
    let limits = [
        (0, 0xFFFF),
        (1, 0xFF),
        (2, 0xFF),
        (3, 0xFFFF),
        (4, MOST),
        (5, MOST),
        (6, 0xFFFF),
        (7, MOST),
        (8, MOST),
    ];
    for (at, most) in limits {
        for value in [0, 1, most - 1, most, most.saturating_add(1), TOP, MOST] {
            let mut numbers = rows(2);
            numbers[at] = value;
            sheet.add(&numbered(&numbers));
        }
    }
    // Too wide in the last of the most pipes.
    let mut numbers = rows(30);
    numbers[90] = 0xFFFF;
    sheet.add(&numbered(&numbers));
    numbers[90] = 0x1_0000;
    sheet.add(&numbered(&numbers));
    sheet.both(&numbered(&numbers));
    let mut noisy = numbered(&rows(1));
    noisy.interface = MOST;
    noisy.message_id = MOST;
    noisy.fields = [MOST; FIELDS];
    sheet.add(&noisy);
}

/// One field outside its values for each kind, in rooms too short as well.
fn both_due(sheet: &mut Sheet) {
    let spoilt = [
        call(1, &[2], &[]),
        call(2, &[1, TOP], &[]),
        call(3, &[1, 1, 0], &[]),
        call(4, &[2, 0, 0], &[]),
        device().with(16, 9),
        device().with(1, 3),
        call(7, &[0, 1, 5], &[]),
        io(8).with(2, 10),
        io(9).with(1, 10),
        transfer(10, 4, BULK_OR_INTERRUPT_TRANSFER).with(4, TOP),
        transfer(10, 0, SELECT_CONFIGURATION).with(0, 1),
        transfer(11, 6, ISOCH_TRANSFER).with(0, 1000),
        transfer(11, 4, BULK_OR_INTERRUPT_TRANSFER).with(5, 1),
        call(14, &[0], &[]),
        io_completion().with(4, 100),
        urb_completion(16).with(6, 0),
        urb_completion(17).with(3, 100),
    ];
    for call in &spoilt {
        sheet.both(call);
    }
    for (sample, _) in samples() {
        if sample.kind >= 7 {
            sheet.both(&Call {
                interface: 3,
                ..sample
            });
        }
    }
}

/// Messages of 65,535 bytes and of one more. A lent byte may be in two parts,
/// which keeps the file small.
fn largest(sheet: &mut Sheet) {
    let exact = |sheet: &mut Sheet, call: &Call| sheet.calls.push(call.in_room(65_535));
    for kind in [8, 9] {
        exact(sheet, &call(kind, &[1, 0, 65_507, 4, 9], &counted(65_507)));
    }
    exact(sheet, &call(15, &[9, 0, 0, 0, 65_507], &counted(65_507)));
    exact(sheet, &call(17, &[9, 0, 0, 65_499, 0, 4], &counted(65_499)));

    // The data and 1,024 packets.
    let isoch = u32::from(ISOCH_TRANSFER);
    let fields = [0, 53_199, 6, isoch, 9, 0, 0x11, 2, 3, 4, 5, 12_288];
    let out = call(11, &fields, &counted(53_199));
    exact(sheet, &out);
    let out = call(11, &fields, &counted(53_200)).with(5, 1);
    exact(sheet, &out);
    sheet.add(&out.with(1, 53_200));

    // The most interfaces, and a descriptor that starts in the padding of the
    // first of them. The second call's TsUrb has a Size over 16 bits.
    let mut lent = interfaces(&[30; 32]);
    let size = lent.len() as u32;
    lent[6..8].copy_from_slice(&[9, 2]);
    let more = counted(53_622 - lent.len());
    lent.extend(more);
    let fields = [0, 0, 0, 0, 9, 0, 1, 32, 0, size, 6, 65_499 - size];
    let configuration = call(10, &fields, &lent);
    exact(sheet, &configuration);
    sheet.add(&configuration.with(11, 65_536 - 16 - size));

    // A result and data of half the message each.
    let fields = [9, 0, 0, 32_750, 0, 0, 32_749];
    let done = call(16, &fields, &counted(32_750));
    exact(sheet, &done);
    // The one refusal that has to leave this much as it was.
    sheet.calls.push(done.with(6, 32_750).in_room(65_536));
}

/// The calls of the committed file: the chosen ones and some drawn from a fixed
/// seed, without giants, which would make the file large.
pub fn calls() -> Vec<Call> {
    let mut all = chosen();
    all.extend(drawn::calls(1, 300, false));
    all
}

fn chosen() -> Vec<Call> {
    let mut sheet = Sheet::default();
    for (sample, used) in samples() {
        sheet.rooms(&sample);
        sheet.noise(&sample, used);
        if sample.kind >= 7 {
            sheet.headers(&sample);
        }
    }
    setup(&mut sheet);
    capabilities(&mut sheet);
    texts(&mut sheet);
    callbacks(&mut sheet);
    io_requests(&mut sheet);
    functions(&mut sheet);
    descriptors(&mut sheet);
    lists(&mut sheet);
    packets(&mut sheet);
    ends_of_requests(&mut sheet);
    numbered_interfaces(&mut sheet);
    both_due(&mut sheet);
    largest(&mut sheet);
    sheet.calls
}
