//! A fixed capture that goes through a device's capabilities (000 2.2.11) field
//! by field, on all channels.
//!
//! The script knows by the values of `classes` which device is accepted: that
//! one moves its channel on, so the channel is closed and brought up again before
//! its next try. The judge is not asked, so the bytes do not depend on it.

use std::collections::BTreeSet;

use crate::capture::Record;
use crate::classes::{good, Words, ALLOWED, BUS, BYTES, CB_SIZE, FIELDS, HOST, NO_ACK_MS, SPEED};
use crate::compose::{
    add_device, first_word, set32, transfer, urb, words, DeviceSpec, Head, Put, Text,
};
use crate::kinds::{CLIENT, CLOSE, SERVER};
use crate::proper::NO_ACK;
use crate::table::CHANNELS;
use crate::urb::{BULK_OR_INTERRUPT_TRANSFER, CONTROL_TRANSFER, ISOCH_TRANSFER};

const MOST: u32 = u32::MAX;

/// Good structures; neighbours differ in every field that has more than one
/// allowed value.
const BASES: [Words; 4] = [
    [28, 2, 0x600, 0x200, 0, 1, 10],
    [28, 1, 0x500, 0x110, 0, 0, 0],
    [28, 2, 0x600, 0x100, 0, 1, 512],
    [28, 0, 0x500, 0x110, 0, 0, 256],
];

/// No two fields have the same value, and no two can exchange theirs.
const DISTINCT: Words = [28, 2, 0x600, 0x110, 0, 1, 10];

/// A barred value of each field: one off an allowed one, and one whose low byte
/// is that of an allowed one.
const NEAR: Words = [27, 3, 0x501, 0x101, 1, 2, 9];
const FAR: Words = [
    0x0100_001C,
    0x0100_0002,
    0x0100_0600,
    0x0100_0110,
    0x0100_0000,
    0x0100_0001,
    0x0100_000A,
];

/// Values that are tried besides those next to an allowed one: versions of USB
/// and USBDI that there are or could be, and sizes that could be meant.
const SPECIAL: [&[u32]; FIELDS] = [
    &[7, 14, 20, 24, 26, 30, 32, 56, 0x1C1C, 0x001C_0000],
    &[3, 4, 0x100, 0x110, 0x200],
    &[0x300, 0x400, 0x502, 0x550, 0x5FE, 0x610, 5, 6, 0x506],
    &[
        0x10, 0x102, 0x10E, 0x112, 0x120, 0x150, 0x1FE, 0x202, 0x210, 0x300, 0x310, 1, 2,
    ],
    &[2, 3, 0x10, 0x40, 0x8000],
    &[3, 4, 0x100],
    &[
        1, 2, 3, 4, 5, 6, 7, 8, 12, 31, 100, 127, 128, 255, 256, 257, 300, 510, 514, 600, 768,
        1000, 1023, 1024,
    ],
];

/// Counts of the four texts' units; each try takes the next ones, so that the
/// structure stands at another byte.
const COUNTS: [[usize; 4]; 7] = [
    [2, 3, 0, 1],
    [0, 0, 0, 0],
    [1, 2, 2, 2],
    [5, 0, 4, 0],
    [3, 4, 2, 3],
    [0, 1, 2, 0],
    [8, 6, 0, 5],
];

fn text(count: usize, zeros: usize) -> Text {
    let keep = count - zeros.min(count);
    let mut units: Vec<u16> = (0..count as u16).map(|at| 0x41 + at % 26).collect();
    units[keep..].fill(0);
    Text::of(units)
}

fn texts(counts: [usize; 4]) -> [Text; 4] {
    let [instance, hardware, compatible, container] = counts;
    [
        text(instance, 1),
        text(hardware, 2),
        text(compatible, 2),
        text(container, 1),
    ]
}

fn device_id(c: usize) -> u32 {
    4 + c as u32
}

fn with(base: Words, field: usize, value: u32) -> Words {
    let mut out = base;
    out[field] = value;
    out
}

struct Script {
    out: Vec<u8>,
    records: u32,
    /// Channels that can be taken as they are for the next try: phase 4.
    waiting: [bool; CHANNELS],
    turn: usize,
    tries: usize,
}

impl Script {
    fn send(&mut self, c: usize, side: u8, message: &[u8]) {
        self.records += 1;
        let record = Record {
            channel: c as u8,
            side,
            stamp: u64::from(self.records),
            message,
        };
        record.write(&mut self.out);
    }

    fn send_words(&mut self, c: usize, side: u8, first: u32, function: u32, body: &[u32]) {
        let message = words(first, self.records, function, body);
        self.send(c, side, &message);
    }

    /// The step that is accepted in this phase, 0 to 3.
    fn step(&mut self, c: usize, phase: usize) {
        match phase {
            0 => self.send_words(c, SERVER, first_word(0, 0), 0x100, &[1]),
            // Without a function: the third word is CapabilityValue.
            1 => self.send_words(c, CLIENT, first_word(0, 0), 1, &[0]),
            2 => self.send_words(c, SERVER, first_word(3, 1), 0x100, &[1, 0, 0]),
            _ => self.send_words(c, CLIENT, first_word(2, 1), 0x100, &[1, 0, 0]),
        }
    }

    fn close(&mut self, c: usize) {
        self.send(c, CLOSE, &[]);
        self.waiting[c] = false;
    }

    fn ready(&mut self, c: usize) {
        if !self.waiting[c] {
            self.close(c);
            (0..4).for_each(|phase| self.step(c, phase));
            self.waiting[c] = true;
        }
    }

    fn next_channel(&mut self) -> usize {
        self.turn = (self.turn + 1) % CHANNELS;
        self.turn
    }

    fn next_texts(&mut self) -> [Text; 4] {
        self.tries += 1;
        texts(COUNTS[self.tries % COUNTS.len()])
    }

    fn message_with(&self, c: usize, texts: [Text; 4], capabilities: Words) -> Vec<u8> {
        let spec = DeviceSpec {
            devices: 1,
            interface: device_id(c),
            texts,
            capabilities,
        };
        add_device(first_word(1, 1), self.records, &spec)
    }

    fn message(&mut self, c: usize, capabilities: Words) -> Vec<u8> {
        let texts = self.next_texts();
        self.message_with(c, texts, capabilities)
    }

    fn device_with(&mut self, c: usize, texts: [Text; 4], capabilities: Words) {
        self.ready(c);
        let message = self.message_with(c, texts, capabilities);
        self.send(c, CLIENT, &message);
        self.waiting[c] = !good(&capabilities);
    }

    fn device_on(&mut self, c: usize, capabilities: Words) {
        let texts = self.next_texts();
        self.device_with(c, texts, capabilities);
    }

    fn device(&mut self, capabilities: Words) {
        let c = self.next_channel();
        self.device_on(c, capabilities);
    }

    /// A device that the change makes a refused one.
    fn changed(&mut self, capabilities: Words, change: impl Fn(&mut Vec<u8>)) {
        let c = self.next_channel();
        self.ready(c);
        let mut message = self.message(c, capabilities);
        change(&mut message);
        self.send(c, CLIENT, &message);
    }

    fn urb(&mut self, c: usize, function: u32, urb: &[u8], data: &[u8]) {
        let head = Head {
            first: first_word(device_id(c), 1),
            message_id: self.records,
            function,
        };
        let size = data.len() as u32;
        let message = transfer(head, urb.len() as u32, urb, size, data);
        self.send(c, SERVER, &message);
    }

    fn isoch(&mut self, c: usize, function: u32, request: u32, data: &[u8]) {
        let mut rest = Vec::new();
        // PipeHandle, TransferFlags, StartFrame, the packet count, ErrorCount and
        // the packet.
        for word in [0x11, 0, 0, 1, 0, 0, data.len() as u32, 0] {
            rest.put32(word);
        }
        self.urb(c, function, &urb(ISOCH_TRANSFER, request, &rest), data);
    }

    /// Transfers that the last field allows or bars. The third one's id is open
    /// by the second, which is no matter to NoAck.
    fn transfers(&mut self, c: usize) {
        self.isoch(c, 0x106, 7 | NO_ACK, &[1, 2, 3]);
        self.isoch(c, 0x106, 7, &[4, 5]);
        self.isoch(c, 0x106, 7 | NO_ACK, &[6]);
        self.isoch(c, 0x105, 8, &[]);
        self.isoch(c, 0x105, 9 | NO_ACK, &[]);
        let bulk = urb(BULK_OR_INTERRUPT_TRANSFER, 10 | NO_ACK, &[0; 8]);
        self.urb(c, 0x106, &bulk, &[7]);
        let control = urb(CONTROL_TRANSFER, 11 | NO_ACK, &[0; 16]);
        self.urb(c, 0x106, &control, &[]);
    }
}

/// Every combination of allowed values, of the last field its ends.
fn products(script: &mut Script) {
    for ms in [0, 10, 512] {
        for usbdi in [0x500, 0x600] {
            for usb in [0x100, 0x110, 0x200] {
                for (bus, speed) in [(0, 0), (0, 1), (1, 0), (1, 1), (2, 0), (2, 1)] {
                    script.device([28, bus, usbdi, usb, 0, speed, ms]);
                }
            }
        }
    }
}

/// In rising order, so that what is next to an allowed value comes next to it.
fn candidates(field: usize) -> BTreeSet<u32> {
    let mut out = BTreeSet::from([0, 1, 0x7FFF_FFFF, 0x8000_0000, MOST - 1, MOST]);
    out.extend(SPECIAL[field]);
    for (low, high) in ALLOWED[field] {
        let all = high - low < 3;
        for value in (*low..=*high).filter(|value| all || value == low || value == high) {
            out.extend([value.wrapping_sub(1), value, value.wrapping_add(1)]);
            out.insert(value.swap_bytes());
            for shift in [8, 16, 24] {
                out.extend([0x01, 0x80].map(|byte| value ^ byte << shift));
            }
        }
    }
    if field == HOST {
        out.extend((0..32).map(|bit| 1 << bit));
    }
    out
}

fn each_field(script: &mut Script) {
    for field in 0..FIELDS {
        for (at, value) in candidates(field).into_iter().enumerate() {
            script.device(with(BASES[at % BASES.len()], field, value));
        }
    }
}

fn joined(script: &mut Script) {
    let buses = [0, 1, 2, 3, 0x100, 0x0100_0000, 0x8000_0000, MOST];
    let speeds = [0, 1, 2, 0x100, 0x0100_0000, 0x8000_0001, MOST];
    for (at, bus) in buses.into_iter().enumerate() {
        for speed in speeds {
            let base = with(BASES[at % BASES.len()], BUS, bus);
            script.device(with(base, SPEED, speed));
        }
    }
}

fn several_barred(script: &mut Script) {
    for one in 0..FIELDS {
        for other in one + 1..FIELDS {
            for (first, second) in [(NEAR, NEAR), (FAR, FAR), (NEAR, FAR)] {
                let base = with(DISTINCT, one, first[one]);
                script.device(with(base, other, second[other]));
            }
            let mut exchanged = DISTINCT;
            exchanged.swap(one, other);
            script.device(exchanged);
        }
    }
    let mut reversed = DISTINCT;
    reversed.reverse();
    for all in [
        NEAR,
        FAR,
        [0; FIELDS],
        [MOST; FIELDS],
        [28; FIELDS],
        reversed,
    ] {
        script.device(all);
    }
}

/// On each channel all fields barred by turns, each on one channel first and on
/// another last, and a device that is accepted right behind.
fn tries(script: &mut Script) {
    // The tries before are not to count.
    script.waiting = [false; CHANNELS];
    for values in [NEAR, FAR] {
        for step in 0..FIELDS {
            for c in 0..CHANNELS {
                let field = (c + step) % FIELDS;
                // The milliseconds of a refused device must not stay.
                let ms = if c % 2 == 0 { 512 } else { 0 };
                let base = with(BASES[step % BASES.len()], NO_ACK_MS, ms);
                script.device_on(c, with(base, field, values[field]));
            }
        }
        // The phase is still 4 and no device is known.
        for c in 0..CHANNELS {
            script.send_words(c, CLIENT, first_word(1, 1), 0x100, &[]);
            script.isoch(c, 0x106, 1 | NO_ACK, &[1]);
        }
        for (c, ms) in [0, 10, 11, 255, 256, 0, 511, 512].into_iter().enumerate() {
            script.device_on(c, with(BASES[c % BASES.len()], NO_ACK_MS, ms));
        }
        for c in (0..CHANNELS).rev() {
            script.isoch(c, 0x106, 1 | NO_ACK, &[1]);
        }
    }
}

/// The structure has 28 bytes whatever CbSize says.
fn size_field(script: &mut Script) {
    for size in [0, 4, 24, 26, 27, 29, 30, 32, 56] {
        script.device(with(DISTINCT, CB_SIZE, size));
        for said in [size, 28] {
            script.changed(with(DISTINCT, CB_SIZE, said), |message| {
                let start = message.len() - BYTES;
                message.resize(start + size as usize, 0);
            });
        }
    }
    script.changed(DISTINCT, |message| {
        let start = message.len() - BYTES;
        message.extend_from_within(start..);
    });
    script.changed(DISTINCT, |message| {
        let whole = message.len();
        set32(message, whole - BYTES, whole as u32);
    });
    script.device(DISTINCT);
}

/// The structure behind texts of many lengths, and behind texts that look like
/// one.
fn shifts(script: &mut Script) {
    for (at, count) in [0, 1, 2, 3, 4, 7, 16, 33, 100].into_iter().enumerate() {
        let mut counts = [0; 4];
        counts[at % 4] = count;
        let base = BASES[at % BASES.len()];
        let c = script.next_channel();
        for (field, value) in NEAR.into_iter().enumerate() {
            script.device_with(c, texts(counts), with(base, field, value));
        }
        script.device_with(c, texts(counts), base);
    }
    let c = script.next_channel();
    for capabilities in [
        with(DISTINCT, CB_SIZE, 27),
        with(DISTINCT, NO_ACK_MS, 513),
        DISTINCT,
    ] {
        script.device_with(c, texts([512; 4]), capabilities);
    }
    // Both end in two zero units.
    let good = with(DISTINCT, NO_ACK_MS, 0);
    for (field, value) in NEAR.into_iter().enumerate().take(NO_ACK_MS) {
        let barred = with(good, field, value);
        for (shown, meant) in [(good, barred), (barred, good)] {
            let c = script.next_channel();
            let texts = std::array::from_fn(|_| look_alike(shown));
            script.device_with(c, texts, meant);
        }
    }
}

fn look_alike(capabilities: Words) -> Text {
    let halves = capabilities.iter().flat_map(|word| [*word, word >> 16]);
    Text::of(halves.map(|half| half as u16).collect())
}

fn cuts(script: &mut Script) {
    for cut in 1..=BYTES {
        let base = BASES[cut % BASES.len()];
        script.changed(base, |message| message.truncate(message.len() - cut));
    }
    for more in [1, 2, 3, 4, 8, 28] {
        let base = BASES[more % BASES.len()];
        script.changed(base, |message| message.resize(message.len() + more, 0));
    }
    for (field, value) in NEAR.into_iter().enumerate() {
        let barred = with(DISTINCT, field, value);
        script.changed(barred, |message| message.push(0));
        // Right behind the barred field, of the last one inside it.
        let left = (BYTES - 4 * field - 4).max(1);
        script.changed(barred, |message| message.truncate(message.len() - left));
        script.changed(barred, |message| message.truncate(message.len() - 2));
    }
    // A container id that leaves two of its bytes, and one that takes two more.
    for count in [1, 3] {
        let c = script.next_channel();
        let mut shifted = texts([2, 2, 2, 2]);
        shifted[3].count = count;
        script.device_with(c, shifted, DISTINCT);
        script.waiting[c] = true;
    }
    script.device(DISTINCT);
}

/// What the last field allows behind an accepted device, and that a device in
/// another phase does not change it.
fn afterwards(script: &mut Script) {
    for ms in [0, 10, 11, 100, 255, 256, 266, 511, 512] {
        let c = script.next_channel();
        script.device_on(c, with(DISTINCT, NO_ACK_MS, ms));
        script.transfers(c);
    }
    for (ms, other) in [(0, 512), (10, 0), (512, 0), (256, 9)] {
        let c = script.next_channel();
        script.device_on(c, with(DISTINCT, NO_ACK_MS, ms));
        let again = script.message(c, with(DISTINCT, NO_ACK_MS, other));
        script.send(c, CLIENT, &again);
        script.transfers(c);
        script.send_words(c, SERVER, first_word(device_id(c), 1), 0x107, &[1]);
        script.send(c, CLIENT, &again);
        script.transfers(c);
        // Brought up again, the channel has nothing of the device before.
        script.device_on(c, with(DISTINCT, NO_ACK_MS, other));
        script.transfers(c);
    }
}

/// Devices in the phases before and behind, by the server, and on channel 8.
fn elsewhere(script: &mut Script) {
    let c = script.next_channel();
    script.close(c);
    for phase in 0..4 {
        for capabilities in [DISTINCT, with(DISTINCT, CB_SIZE, 27)] {
            let message = script.message(c, capabilities);
            script.send(c, CLIENT, &message);
        }
        script.step(c, phase);
    }
    script.waiting[c] = true;
    let message = script.message(c, DISTINCT);
    script.send(c, SERVER, &message);
    script.send(CHANNELS, CLIENT, &message);
    script.device_on(c, DISTINCT);
    for (field, value) in NEAR.into_iter().enumerate() {
        let message = script.message(c, with(DISTINCT, field, value));
        script.send(c, CLIENT, &message);
    }
}

pub fn capture() -> Vec<u8> {
    let mut script = Script {
        out: Vec::new(),
        records: 0,
        waiting: [false; CHANNELS],
        turn: CHANNELS - 1,
        tries: 0,
    };
    products(&mut script);
    each_field(&mut script);
    joined(&mut script);
    several_barred(&mut script);
    tries(&mut script);
    size_field(&mut script);
    shifts(&mut script);
    cuts(&mut script);
    afterwards(&mut script);
    elsewhere(&mut script);
    script.out
}

#[cfg(test)]
mod tests {
    use super::*;
    use crate::classes::allowed;

    #[test]
    fn what_the_script_takes_for_good_or_barred_is() {
        assert!(BASES.iter().chain([&DISTINCT]).all(good));
        for field in 0..FIELDS {
            assert!(!allowed(field, NEAR[field]) && !allowed(field, FAR[field]));
        }
    }
}
