//! Tables and messages the tests start from. All bytes are written out from
//! 01 and 000, not made by the maker.
#![allow(dead_code)]

use second::journal::Entry;
use second::table::Table;

pub fn hex(text: &str) -> Vec<u8> {
    let digits: Vec<u8> = text
        .chars()
        .filter(|c| !c.is_whitespace())
        .map(|c| c.to_digit(16).expect("hex digit") as u8)
        .collect();
    digits
        .chunks(2)
        .map(|pair| pair[0] << 4 | pair[1])
        .collect()
}

pub const CAPABILITY_REQUEST: &str = "00000000 01000000 00010000 01000000";
pub const CAPABILITY_RESPONSE: &str = "00000000 01000000 01000000 00000000";
pub const SERVER_CREATED: &str = "03000040 02000000 00010000 01000000 00000000 00000000";
pub const CLIENT_CREATED: &str = "02000040 03000000 00010000 01000000 00000000 00000000";
pub const ADD_VIRTUAL_CHANNEL: &str = "01000040 04000000 00010000";
pub const REGISTER_5: &str = "04000040 06000000 01010000 01000000 05000000";
pub const RETRACT: &str = "04000040 07000000 07010000 01000000";

pub const C1: &str =
    "04000040 01000000 05010000 10000000 10000900 07000000 11000000 03000000 40000000";
pub const C2: &str =
    "05000040 02000000 01010000 07000000 08000000 08000000 00000000 00000000 02000000 AABB";

/// Device 4 with four short texts; the last word is NoAck milliseconds.
pub fn add_device(ms: u32) -> Vec<u8> {
    let mut message = hex("01000040 05000000 01010000 01000000 04000000
         02000000 41000000  03000000 410000000000  00000000  01000000 0000
         1C000000 02000000 00060000 00020000 00000000 01000000");
    message.extend(ms.to_le_bytes());
    message
}

pub fn judge(table: &mut Table, side: u8, message: &[u8]) -> Entry {
    table.judge(0, side, 0, message).expect("a usable number")
}

pub fn answer(table: &mut Table, side: u8, message: &[u8]) -> u8 {
    judge(table, side, message).answer
}

/// A table whose channel 0 has come to `phase` by messages alone, with no
/// callback yet; `next` is the number its next entry will have.
pub fn in_phase(phase: u8, ms: u32, next: u32) -> Table {
    let steps: [(u8, Vec<u8>); 6] = [
        (1, hex(CAPABILITY_REQUEST)),
        (2, hex(CAPABILITY_RESPONSE)),
        (1, hex(SERVER_CREATED)),
        (2, hex(CLIENT_CREATED)),
        (2, add_device(ms)),
        (1, hex(RETRACT)),
    ];
    let mut table = Table::open(1);
    for (side, message) in &steps[..usize::from(phase)] {
        assert_eq!(answer(&mut table, *side, message), 0);
    }
    assert_eq!(table.channels[0].phase, phase);
    table.next = next;
    table
}

/// 01 "Shown of the rules themselves": ready, but for the NoAck milliseconds.
pub fn ready_with(ms: u32) -> Table {
    let mut table = in_phase(5, ms, 9);
    assert_eq!(answer(&mut table, 1, &hex(REGISTER_5)), 0);
    assert_eq!(table.next, 10);
    table
}

pub fn ready() -> Table {
    ready_with(0)
}

/// A message of words behind each other.
pub fn words(list: &[u32]) -> Vec<u8> {
    list.iter().flat_map(|word| word.to_le_bytes()).collect()
}

/// An IO control of device 4 without input.
pub fn io(request: u32, out_size: u32) -> Vec<u8> {
    words(&[0x4000_0004, 0, 0x102, 0x0022_4000, 0, out_size, request])
}

/// A transfer of device 4: kind 10 for function 0x105, kind 11 for 0x106.
pub fn transfer(function: u32, urb: &[u8], out_size: u32, data: &[u8]) -> Vec<u8> {
    let mut message = words(&[0x4000_0004, 0, function, urb.len() as u32]);
    message.extend(urb);
    message.extend(out_size.to_le_bytes());
    message.extend(data);
    message
}

/// A TsUrb with the right Size.
pub fn urb(function: u16, request: u32, rest: &[u8]) -> Vec<u8> {
    let mut out = ((8 + rest.len()) as u16).to_le_bytes().to_vec();
    out.extend(function.to_le_bytes());
    out.extend(request.to_le_bytes());
    out.extend(rest);
    out
}

pub fn bulk_in(request: u32, out_size: u32) -> Vec<u8> {
    transfer(0x105, &urb(9, request, &[0; 8]), out_size, &[])
}

pub fn bulk_out(request: u32, data: &[u8]) -> Vec<u8> {
    transfer(0x106, &urb(9, request, &[0; 8]), data.len() as u32, data)
}

/// The rest of an isochronous TsUrb that says `packets` and has `written`.
pub fn isoch(packets: u32, written: usize) -> Vec<u8> {
    let mut rest = words(&[0x11, 0, 0, packets, 0]);
    rest.extend(vec![0; 12 * written]);
    rest
}

/// Kind 13 of device 4.
pub fn cancel(request: u32) -> Vec<u8> {
    words(&[0x4000_0004, 0, 0x100, request])
}

/// Kind 15 to callback 5.
pub fn io_done(request: u32, hresult: u32, information: u32, data: &[u8]) -> Vec<u8> {
    let size = data.len() as u32;
    let mut message = words(&[0x4000_0005, 0, 0x100, request, hresult, information, size]);
    message.extend(data);
    message
}

/// Kind 16 to callback 5.
pub fn urb_done(request: u32, data: &[u8]) -> Vec<u8> {
    let size = data.len() as u32;
    let mut message = words(&[0x4000_0005, 0, 0x101, request, 8, 8, 0, 0, size]);
    message.extend(data);
    message
}

/// Kind 17 to callback 5.
pub fn urb_done_plain(request: u32, size: u32) -> Vec<u8> {
    words(&[0x4000_0005, 0, 0x102, request, 8, 8, 0, 0, size])
}
