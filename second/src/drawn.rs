//! Calls of the writer drawn from a seed: of all kinds, most of them as 01 wants
//! them and the others spoilt in one place or two.

use crate::calls::{Call, FIELDS, INTERFACE_CALL, MOST_LENT};
use crate::chosen::{counted, urb_fields, STRUCTURES};
use crate::compose::{interface, Put};
use crate::damage::WORDS;
use crate::rng::Rng;

const KINDS: [u32; 26] = [
    0, 0, 1, 2, 3, 4, 5, 6, 6, 6, 7, 8, 9, 10, 10, 10, 10, 10, 11, 11, 11, 13, 14, 15, 16, 17,
];

/// Fields that choose between forms and may only hold the numbers of a form:
/// the structure of a TsUrb, NoAck, and whether a RequestCompletion is given.
fn is_choice(kind: u32, at: usize) -> bool {
    match kind {
        7 => at == 1,
        10 | 11 => at == 2 || at == 5,
        _ => false,
    }
}

struct Drawer {
    rng: Rng,
    fields: Vec<u32>,
    lent: Vec<u8>,
    /// At which fields a part's start stands.
    parts: Vec<usize>,
}

impl Drawer {
    /// A part behind those there are, at times with a gap before it.
    fn lend(&mut self, bytes: &[u8]) {
        let gap = self.rng.pick(&[0, 0, 0, 1, 5]);
        let gap = self.rng.bytes(gap);
        self.lent.extend(gap);
        self.parts.push(self.fields.len());
        self.fields.push(self.lent.len() as u32);
        self.fields.push(bytes.len() as u32);
        self.lent.extend(bytes);
    }

    fn word(&mut self) -> u32 {
        match self.rng.below(4) {
            0 => self.rng.pick(&WORDS),
            1 => self.rng.below(100) as u32,
            _ => self.rng.word(),
        }
    }

    fn put_words(&mut self, count: usize) {
        for _ in 0..count {
            let word = self.word();
            self.fields.push(word);
        }
    }

    fn id(&mut self) -> u32 {
        let low = match self.rng.below(4) {
            0 => 4,
            1 => 0x3FFF_FFFF,
            2 => self.rng.between(4, 40) as u32,
            _ => (self.rng.word() & 0x3FFF_FFFF).max(4),
        };
        low | self.rng.pick(&[0, 0, 1, 2, 3]) << 30
    }

    fn data(&mut self) -> Vec<u8> {
        let count = match self.rng.below(8) {
            0 => 0,
            1..=5 => self.rng.between(1, 24),
            _ => self.rng.between(24, 200),
        };
        self.rng.bytes(count)
    }

    fn text(&mut self, zeros: usize) -> Vec<u8> {
        let count = match self.rng.below(30) {
            0 => 512,
            1..=5 => 0,
            6 | 7 => 1,
            8..=10 => 2,
            _ => self.rng.between(3, 12),
        };
        let mut bytes = self.rng.bytes(2 * count);
        let keep = 2 * (count - zeros.min(count));
        bytes[keep..].fill(0);
        bytes
    }

    fn interfaces(&mut self, count: usize) -> Vec<u8> {
        let mut out = Vec::new();
        for _ in 0..count {
            let pipes = match self.rng.below(24) {
                0 => 30,
                1 => 31,
                _ => self.rng.below(4),
            };
            let mut settings = [0; 6];
            settings.copy_from_slice(&self.rng.bytes(6));
            let bytes = self.rng.bytes(12 * pipes);
            let length = 12 + 12 * pipes as u16;
            out.extend(interface(length, settings, pipes as u32, &bytes));
        }
        out
    }

    fn device(&mut self) {
        let id = self.id();
        self.fields.extend([1, id]);
        for zeros in [1, 2, 2, 1] {
            let text = self.text(zeros);
            self.lend(&text);
        }
        let bus = self.rng.below(3) as u32;
        let speed = if bus == 0 {
            0
        } else {
            self.rng.below(2) as u32
        };
        let usbdi = self.rng.pick(&[0x500, 0x600]);
        let usb = self.rng.pick(&[0x100, 0x110, 0x200]);
        let ms = self.rng.pick(&[0, 10, 11, 99, 511, 512]);
        self.fields.extend([28, bus, usbdi, usb, 0, speed, ms]);
    }

    /// F2 and what follows, in the proper shape and mostly allowed by 01.
    fn urb(&mut self, kind: u32) {
        let which = match (kind, self.rng.below(20)) {
            (_, 0) => self.rng.below(7),
            (10, _) => self.rng.pick(&[0, 0, 0, 0, 1, 1, 2, 3, 4, 5, 6]),
            _ => self.rng.pick(&[4, 5, 6]),
        };
        let (which, functions) = STRUCTURES[which];
        let function = u32::from(self.rng.pick(functions));
        let request = self.word() & 0x7FFF_FFFF;
        let no_ack = match (kind, which) {
            (11, 6) => self.rng.below(2),
            _ => usize::from(self.rng.one_in(40)),
        };
        self.fields
            .extend([which, function, request, no_ack as u32]);
        match which {
            0 => {
                let count = match self.rng.below(24) {
                    0 => 32,
                    1 => 33,
                    _ => self.rng.below(4),
                };
                let flag = self.rng.pick(&[0, 0, 1, 1, 2, 0x80, 0xFF]);
                self.fields.extend([flag, count as u32]);
                let list = self.interfaces(count);
                self.lend(&list);
                let mut descriptor = Vec::new();
                if flag != 0 {
                    let count = self.rng.pick(&[9, 9, 10, 18, 32]);
                    descriptor = self.rng.bytes(count);
                    descriptor[..2].copy_from_slice(&[9, 2]);
                }
                self.lend(&descriptor);
            }
            1 => {
                self.put_words(1);
                let list = self.interfaces(1);
                self.lend(&list);
            }
            2 => {}
            3 => self.put_words(1),
            4 => self.put_words(2),
            5 => {
                self.put_words(2);
                let setup = self.rng.bytes(8);
                self.lend(&setup);
            }
            _ => {
                self.put_words(4);
                let count = self.rng.pick(&[0, 1, 1, 2, 3, 9]);
                let packets = self.rng.bytes(12 * count);
                self.lend(&packets);
            }
        }
    }

    /// Kind 0: the lent bytes are the interface and its pipes.
    fn rows(&mut self) {
        let pipes = match self.rng.below(8) {
            0 => 30,
            1 => 31,
            _ => self.rng.below(5),
        };
        for row in 0..=pipes {
            let mut first = [self.word() & 0xFFFF, self.word(), self.word()];
            if row == 0 {
                first[1] &= 0xFF;
                first[2] &= 0xFF;
            }
            for number in first {
                self.lent.put32(number);
            }
        }
        if self.rng.one_in(4) {
            let word = self.rng.pick(&[0x100, 0xFFFF, 0x1_0000, u32::MAX]);
            let at = 4 * self.rng.below(self.lent.len() / 4);
            self.lent[at..at + 4].copy_from_slice(&word.to_le_bytes());
        }
        let more = self.rng.pick(&[0, 0, 0, 0, 1, 2, 3, 4, 8]);
        let more = self.rng.bytes(more);
        self.lent.extend(more);
    }

    /// The fields of a call of the kind, and its lent bytes.
    fn fill(&mut self, kind: u32) {
        match kind {
            INTERFACE_CALL => self.rows(),
            1 | 14 => self.fields.push(1),
            2 => {
                let result = self.word() & 0x7FFF_FFFF;
                self.fields.extend([1, result]);
            }
            3 | 4 => self.fields.extend([1, 0, 0]),
            5 => {}
            6 => self.device(),
            7 => {
                let id = self.id();
                let count = self.rng.pick(&[0, 0, 1, 1, 1, 2, u32::MAX]);
                self.fields.extend([count, count.min(1), id]);
                if self.rng.one_in(12) {
                    self.fields[1] ^= 1;
                }
            }
            8 | 9 => {
                self.put_words(1);
                let data = self.data();
                self.lend(&data);
                self.put_words(2);
            }
            10 => {
                let size = if self.rng.one_in(3) { self.word() } else { 0 };
                self.fields.extend([size, 0]);
                self.urb(kind);
            }
            11 => {
                let data = self.data();
                self.lend(&data);
                self.urb(kind);
            }
            13 => self.put_words(1),
            15 => {
                self.put_words(3);
                let data = self.data();
                self.lend(&data);
            }
            _ => {
                self.put_words(2);
                let count = self.rng.pick(&[0, 0, 4, 12, 24, 1]);
                let more = self.rng.bytes(count);
                self.lend(&more);
                self.put_words(1);
                if kind == 16 {
                    let data = self.data();
                    self.lend(&data);
                } else {
                    self.put_words(1);
                }
            }
        }
    }

    /// Something changed that may or may not matter.
    fn spoil(&mut self, call: &mut Call, used: usize) {
        match self.rng.below(7) {
            0 | 1 if used > 0 => {
                let at = self.rng.below(used);
                if !is_choice(call.kind, at) {
                    call.fields[at] = self.rng.pick(&WORDS);
                }
            }
            2 if used > 0 => {
                let at = self.rng.below(used);
                if !is_choice(call.kind, at) {
                    let step = self
                        .rng
                        .pick(&[1, u32::MAX, 2, 0x100, 0x1_0000, 0x8000_0000]);
                    call.fields[at] = call.fields[at].wrapping_add(step);
                }
            }
            3 if !self.parts.is_empty() => {
                let at = self.rng.pick(&self.parts) + self.rng.below(2);
                let step = self.rng.pick(&[1, u32::MAX, 12, 4]);
                call.fields[at] = call.fields[at].wrapping_add(step);
            }
            4 if !call.lent.is_empty() => {
                let at = self.rng.below(call.lent.len());
                call.lent[at] ^= 1 << self.rng.below(8);
            }
            5 => {
                let cut = self.rng.between(1, 3).min(call.lent.len());
                call.lent.truncate(call.lent.len() - cut);
            }
            _ => {
                call.interface = self.rng.pick(&[
                    0,
                    1,
                    2,
                    3,
                    4,
                    0x3FFF_FFFF,
                    0x4000_0000,
                    0x4000_0004,
                    u32::MAX,
                ]);
            }
        }
    }

    /// A part of an accepted call made so long that the message comes near
    /// 65,535 bytes.
    fn stretch(&mut self, call: &mut Call) {
        let size = match (call.size(), self.parts.last()) {
            (Some(size), Some(_)) => size,
            _ => return,
        };
        let at = self.rng.pick(&self.parts);
        let wanted = self.rng.between(65_530, 65_540) as u32;
        let grown = call.fields[at + 1] + wanted.saturating_sub(size);
        let part = counted(grown as usize);
        if call.lent.len() + part.len() > MOST_LENT as usize {
            call.lent.truncate(MOST_LENT as usize - part.len());
        }
        // A descriptor has to start so, and nothing else minds.
        call.fields[at] = call.lent.len() as u32;
        call.fields[at + 1] = grown;
        call.lent.extend(part);
        let start = call.fields[at] as usize;
        call.lent[start..start + 2].copy_from_slice(&[9, 2]);
    }

    fn room(&mut self, call: &Call) -> u32 {
        let size = match call.size() {
            Some(size) => size,
            None => return self.rng.below(48) as u32,
        };
        match self.rng.below(12) {
            0..=4 => size,
            5..=7 => size + self.rng.between(1, 9) as u32,
            8 => size + self.rng.between(10, 90) as u32,
            9 => size - 1,
            10 => self.rng.below(size as usize) as u32,
            _ => 0,
        }
    }

    fn call(&mut self, giants: bool) -> Call {
        self.fields.clear();
        self.lent.clear();
        self.parts.clear();
        let kind = self.rng.pick(&KINDS);
        if kind != INTERFACE_CALL {
            let front = self.rng.pick(&[0, 0, 1, 4]);
            self.lent = self.rng.bytes(front);
        }
        self.fill(kind);
        let mut used = self.fields.len();
        let mut fields = [0; FIELDS];
        fields[..used].copy_from_slice(&self.fields);
        if kind == 10 || kind == 11 {
            used = urb_fields(fields[2]);
        }
        if self.rng.percent(50) {
            for field in &mut fields[used..] {
                *field = self.rng.word();
            }
        }
        let mut call = Call {
            kind,
            room: 0,
            interface: self.id() & 0x3FFF_FFFF,
            message_id: self.word(),
            fields,
            lent: self.lent.clone(),
        };
        if self.rng.percent(30) {
            let tail = self.rng.between(1, 6);
            if kind != INTERFACE_CALL {
                call.lent.extend(self.rng.bytes(tail));
            }
        }
        if giants && self.rng.one_in(60) {
            self.stretch(&mut call);
        } else if self.rng.percent(40) {
            for _ in 0..self.rng.pick(&[1, 1, 1, 2]) {
                self.spoil(&mut call, used);
            }
        }
        call.room = self.room(&call);
        call
    }
}

/// `giants` are calls whose message comes near 65,535 bytes, one in sixty.
pub fn calls(seed: u64, count: u64, giants: bool) -> Vec<Call> {
    let mut drawer = Drawer {
        rng: Rng::new(seed),
        fields: Vec::new(),
        lent: Vec::new(),
        parts: Vec::new(),
    };
    (0..count).map(|_| drawer.call(giants)).collect()
}
