//! Messages as 01 wants them, and the steps that bring a channel on.

use crate::compose::{
    add_device, configuration, first_word, interface, io_completion, io_control, result, transfer,
    urb, urb_completion, words, DeviceSpec, Head, Put, Text,
};
use crate::kinds::{CLIENT, CLOSE, SERVER};
use crate::maker::{Call, Maker};
use crate::table::{Row, Sort, ROWS};
use crate::urb::{
    ABORT_PIPE, BULK_OR_INTERRUPT_TRANSFER, CONTROL_TRANSFER, GET_CURRENT_FRAME_NUMBER,
    ISOCH_TRANSFER, SELECT_CONFIGURATION, SELECT_INTERFACE, SYNC_RESET_PIPE_AND_CLEAR_STALL,
};

/// The top bit of a transfer's RequestId word (000 2.2.9.1.1); in the id of an IO
/// request, which has all 32 bits, it is a bit of the id.
pub const NO_ACK: u32 = 0x8000_0000;
pub const INSUFFICIENT_BUFFER: u32 = 0x8007_007A;
pub const RESTRICTED: [u16; 5] = [
    SELECT_CONFIGURATION,
    SELECT_INTERFACE,
    ABORT_PIPE,
    GET_CURRENT_FRAME_NUMBER,
    SYNC_RESET_PIPE_AND_CLEAR_STALL,
];
pub const WITH_DATA: [u16; 3] = [CONTROL_TRANSFER, BULK_OR_INTERRUPT_TRANSFER, ISOCH_TRANSFER];

/// Data is written only up to here; a request may well allow more.
const SHORT_DATA: u32 = 600;

impl Maker {
    pub fn call(&self, c: usize, side: u8, message: Vec<u8>) -> Call {
        Call {
            channel: c as u8,
            side,
            message,
        }
    }

    /// Where nothing is given, mostly what was given last and then forgotten.
    pub fn device_word(&mut self, c: usize) -> u32 {
        let guess = if self.rng.percent(70) {
            self.last_device[c]
        } else {
            self.rng.pick(&self.ports)
        };
        first_word(self.channel(c).device.unwrap_or(guess), 1)
    }

    pub fn callback_word(&mut self, c: usize) -> u32 {
        let guess = if self.rng.percent(70) {
            self.last_callback[c]
        } else {
            self.rng.pick(&self.ports)
        };
        first_word(self.channel(c).callback.unwrap_or(guess), 1)
    }

    /// Often a number that is a request or interface id as well: the three
    /// "may never stand in for one another" (01 "The gate's duties").
    pub fn message_id(&mut self, c: usize) -> u32 {
        self.message_count = self.message_count.wrapping_add(1);
        let rows = self.rows(c);
        match self.rng.below(7) {
            0 | 1 if !rows.is_empty() => self.rng.pick(&rows).request,
            2 => self.rng.word(),
            3 => self.rng.below(24) as u32,
            4 => self.channel(c).device.unwrap_or(0),
            5 => 0,
            _ => self.message_count,
        }
    }

    /// A request id that is not open on the channel.
    pub fn fresh(&mut self, c: usize, transfer: bool) -> u32 {
        let rows = self.rows(c);
        let spent = self.spent[c].clone();
        loop {
            let id = match self.rng.below(16) {
                0..=7 => self.rng.below(40) as u32,
                8..=10 if !spent.is_empty() => self.rng.pick(&spent),
                11 => self.channel(c).device.unwrap_or(0),
                12 => self.channel(c).callback.unwrap_or(1),
                13 if !rows.is_empty() => self.rng.pick(&rows).request ^ NO_ACK,
                14 => self
                    .rng
                    .pick(&[0, 1, 0x7FFF_FFFF, 0x8000_0000, 0xFFFF_FFFF, 0x4000_0004]),
                _ => self.rng.word(),
            };
            let id = if transfer { id & !NO_ACK } else { id };
            if self.channel(c).row_of(id).is_none() {
                return id;
            }
        }
    }

    pub fn out_size(&mut self) -> u32 {
        match self.rng.below(20) {
            0 | 1 => 0,
            2..=11 => self.rng.between(1, 16) as u32,
            12..=15 => self.rng.between(16, 64) as u32,
            16 | 17 => self.rng.between(64, 260) as u32,
            18 => self.rng.pick(&[600, 4096, 65_535, 65_536]),
            _ => self
                .rng
                .pick(&[0x7FFF_FFFF, 0x8000_0000, 0xFFFF_FFFE, 0xFFFF_FFFF]),
        }
    }

    pub fn data(&mut self) -> Vec<u8> {
        let count = match self.rng.below(10) {
            0 | 1 => 0,
            2..=7 => self.rng.between(1, 12),
            8 => self.rng.between(12, 48),
            _ => self.rng.between(48, 160),
        };
        self.rng.bytes(count)
    }

    /// A text with `zeros` zero units at its end, as far as it has units.
    fn text(&mut self, zeros: usize) -> Text {
        let count = match self.rng.below(40) {
            0 => 512,
            1..=6 => 0,
            7..=9 => 1,
            10..=13 => 2,
            _ => self.rng.between(3, 12),
        };
        let mut units: Vec<u16> = (0..count).map(|_| self.rng.word() as u16 | 1).collect();
        let keep = count - zeros.min(count);
        units[keep..].fill(0);
        Text::of(units)
    }

    /// An id that is not one of the default interfaces, its top bits at times
    /// set, since only the low 30 count.
    pub fn port(&mut self, c: usize) -> u32 {
        let id = match self.rng.below(8) {
            0..=3 => self.rng.between(4, 9) as u32,
            4 => self.channel(c).device.unwrap_or(4),
            5 => self
                .rng
                .pick(&[0x3FFF_FFFF, 0x2000_0001, 0x100, 0x101, 0x102, 0x105]),
            6 => self.rng.pick(&self.ports),
            _ => (self.rng.word() & 0x3FFF_FFFF).max(4),
        };
        let top = self.rng.pick(&[0, 0, 0, 1, 2, 3]);
        first_word(id, top)
    }

    pub fn device_spec(&mut self, c: usize) -> DeviceSpec {
        let bus = self.rng.below(3) as u32;
        let speed = if bus == 0 {
            0
        } else {
            self.rng.below(2) as u32
        };
        let ms = if self.rng.percent(self.mix.no_ack) {
            self.rng.pick(&[10, 11, 100, 511, 512])
        } else {
            0
        };
        DeviceSpec {
            devices: 1,
            interface: self.port(c),
            texts: [self.text(1), self.text(2), self.text(2), self.text(1)],
            capabilities: [
                28,
                bus,
                self.rng.pick(&[0x500, 0x600]),
                self.rng.pick(&[0x100, 0x110, 0x200]),
                0,
                speed,
                ms,
            ],
        }
    }

    pub fn pipes(&mut self, count: u32) -> Vec<u8> {
        let mut settings = [0; 6];
        settings.copy_from_slice(&self.rng.bytes(6));
        let bytes = self.rng.bytes(12 * count as usize);
        interface((12 + 12 * count) as u16, settings, count, &bytes)
    }

    /// The interfaces of one list, each given by its number of pipes.
    pub fn interfaces(&mut self, pipes: &[u32]) -> Vec<u8> {
        let mut out = Vec::new();
        for count in pipes {
            out.extend(self.pipes(*count));
        }
        out
    }

    pub fn descriptor(&mut self, count: usize) -> Vec<u8> {
        let mut bytes = self.rng.bytes(count);
        for (byte, wanted) in bytes.iter_mut().zip([9, 2]) {
            *byte = wanted;
        }
        bytes
    }

    pub fn isoch(&mut self, packets: u32, written: u32) -> Vec<u8> {
        let mut rest = self.rng.bytes(12);
        rest.put32(packets);
        rest.extend(self.rng.bytes(4 + 12 * written as usize));
        rest
    }

    /// A TsUrb in its proper shape; for a function 01 does not list, any bytes.
    pub fn urb_of(&mut self, function: u16, word: u32) -> Vec<u8> {
        let rest = match function {
            SELECT_CONFIGURATION => {
                let pipes: Vec<u32> = match self.rng.below(30) {
                    0 => vec![0; 32],
                    1 => vec![30],
                    2 => vec![2, 30, 0],
                    _ => (0..self.rng.below(4))
                        .map(|_| self.rng.below(4) as u32)
                        .collect(),
                };
                let interfaces = self.interfaces(&pipes);
                let flag = self.rng.pick(&[0, 0, 0, 1, 1, 2, 0x80, 0xFF]);
                let descriptor = if flag == 0 {
                    Vec::new()
                } else {
                    let count = self.rng.pick(&[9, 9, 9, 10, 18, 25, 32]);
                    self.descriptor(count)
                };
                let padding = self.rng.pick(&[[0, 0, 0], [1, 2, 3], [0xFF, 0xFF, 0xFF]]);
                configuration(flag, padding, pipes.len() as u32, &interfaces, &descriptor)
            }
            SELECT_INTERFACE => {
                let pipes = self.rng.pick(&[0, 0, 1, 1, 2, 3, 4, 30]);
                let mut rest = self.rng.bytes(4);
                rest.extend(self.pipes(pipes));
                rest
            }
            ABORT_PIPE | SYNC_RESET_PIPE_AND_CLEAR_STALL => self.rng.bytes(4),
            GET_CURRENT_FRAME_NUMBER => Vec::new(),
            CONTROL_TRANSFER => self.rng.bytes(16),
            BULK_OR_INTERRUPT_TRANSFER => self.rng.bytes(8),
            ISOCH_TRANSFER => {
                let packets = self.rng.pick(&[0, 1, 1, 2, 2, 3, 5]);
                self.isoch(packets, packets)
            }
            _ => {
                let count = self.rng.pick(&[0, 0, 4, 4, 8, 12, 16, 5]);
                self.rng.bytes(count)
            }
        };
        urb(function, word, &rest)
    }

    pub fn transfer_call(
        &mut self,
        c: usize,
        inward: bool,
        urb: &[u8],
        out_size: u32,
        data: &[u8],
    ) -> Call {
        let head = Head {
            first: self.device_word(c),
            message_id: self.message_id(c),
            function: if inward { 0x105 } else { 0x106 },
        };
        let message = transfer(head, urb.len() as u32, urb, out_size, data);
        self.call(c, SERVER, message)
    }

    /// A request of kind 8 to 12 under the given id.
    pub fn request(&mut self, c: usize, kind: u8, id: u32) -> Call {
        match kind {
            10 => {
                let function = if self.rng.percent(35) {
                    self.rng.pick(&RESTRICTED)
                } else {
                    self.rng.pick(&WITH_DATA)
                };
                let urb = self.urb_of(function, id & !NO_ACK);
                let out_size = if WITH_DATA.contains(&function) {
                    self.out_size()
                } else {
                    0
                };
                self.transfer_call(c, true, &urb, out_size, &[])
            }
            11 | 12 => {
                let no_ack = kind == 12;
                let function = if no_ack {
                    ISOCH_TRANSFER
                } else {
                    self.rng.pick(&WITH_DATA)
                };
                let word = if no_ack { id | NO_ACK } else { id & !NO_ACK };
                let urb = self.urb_of(function, word);
                let data = self.data();
                self.transfer_call(c, false, &urb, data.len() as u32, &data)
            }
            _ => {
                let head = Head {
                    first: self.device_word(c),
                    message_id: self.message_id(c),
                    function: 0x102 + u32::from(kind == 9),
                };
                let code = self
                    .rng
                    .pick(&[0x0022_0007, 0x0022_0013, 0x0022_4000, 0, 0xFFFF_FFFF]);
                let input = self.data();
                let out_size = self.out_size();
                let size = input.len() as u32;
                let message = io_control(head, code, size, &input, out_size, id);
                self.call(c, SERVER, message)
            }
        }
    }

    pub fn result_bytes(&mut self) -> Vec<u8> {
        let more = self.rng.pick(&[0, 0, 0, 0, 4, 12, 24, 1]);
        let padding = self.rng.word() as u16;
        let status = self.rng.pick(&[0, 0xC000_0011, 0x8000_0000]);
        let more = self.rng.bytes(more);
        result((8 + more.len()) as u16, padding, status, &more)
    }

    pub fn failure(&mut self) -> u32 {
        self.rng.pick(&[
            0x8007_001F,
            0x8000_0000,
            0x8007_0079,
            0x8007_007B,
            0x8007_007A ^ 0x4000_0000,
            0xFFFF_FFFF,
        ])
    }

    pub fn success(&mut self) -> u32 {
        self.rng.pick(&[0, 0, 0, 1, 0x0007_007A, 0x7FFF_FFFF])
    }

    pub fn completion_head(&mut self, c: usize, function: u32) -> Head {
        Head {
            first: self.callback_word(c),
            message_id: self.message_id(c),
            function,
        }
    }

    pub fn io_completion_call(
        &mut self,
        c: usize,
        id: u32,
        hresult: u32,
        information: u32,
        data: &[u8],
    ) -> Call {
        let head = self.completion_head(c, 0x100);
        let size = data.len() as u32;
        let message = io_completion(head, id, hresult, information, size, data);
        self.call(c, CLIENT, message)
    }

    /// Kind 16 with its data (000 2.2.7.2).
    pub fn data_completion_call(&mut self, c: usize, id: u32, data: &[u8]) -> Call {
        let head = self.completion_head(c, 0x101);
        let result = self.result_bytes();
        let hresult = self.rng.pick(&[0, 0, 0x8007_001F, 1]);
        let (cb, size) = (result.len() as u32, data.len() as u32);
        let message = urb_completion(head, id, cb, &result, hresult, size, data);
        self.call(c, CLIENT, message)
    }

    /// Kind 17: a size and no bytes (000 2.2.7.3).
    pub fn plain_completion_call(&mut self, c: usize, id: u32, size: u32) -> Call {
        let head = self.completion_head(c, 0x102);
        let result = self.result_bytes();
        let hresult = self.rng.pick(&[0, 0, 0x8007_001F, 1]);
        let cb = result.len() as u32;
        let message = urb_completion(head, id, cb, &result, hresult, size, &[]);
        self.call(c, CLIENT, message)
    }

    /// Some bytes a request of this limit can be given back: at times all.
    fn allowed(&mut self, limit: u32) -> Vec<u8> {
        let most = limit.min(SHORT_DATA) as usize;
        let count = if most == 0 || self.rng.percent(30) {
            most
        } else {
            self.rng.below(most.min(24) + 1)
        };
        self.rng.bytes(count)
    }

    pub fn complete(&mut self, c: usize, row: Row) -> Call {
        match row.sort {
            Sort::Io => match self.rng.below(4) {
                0 if row.limit <= SHORT_DATA => {
                    let data = self.rng.bytes(row.limit as usize);
                    let information = self.rng.pick(&[0, row.limit, 0xFFFF_FFFF, 77]);
                    self.io_completion_call(c, row.request, INSUFFICIENT_BUFFER, information, &data)
                }
                1 => {
                    let hresult = self.failure();
                    let information = self.rng.pick(&[0, 1, row.limit, 0xFFFF_FFFF]);
                    self.io_completion_call(c, row.request, hresult, information, &[])
                }
                _ => {
                    let data = self.allowed(row.limit);
                    let hresult = self.success();
                    let information = data.len() as u32;
                    self.io_completion_call(c, row.request, hresult, information, &data)
                }
            },
            Sort::In => {
                let data = self.allowed(row.limit);
                if data.is_empty() {
                    self.plain_completion_call(c, row.request, 0)
                } else {
                    self.data_completion_call(c, row.request, &data)
                }
            }
            Sort::Out => {
                let size = match self.rng.below(3) {
                    0 => 0,
                    1 => row.limit,
                    _ => self.rng.below(row.limit as usize + 1) as u32,
                };
                self.plain_completion_call(c, row.request, size)
            }
        }
    }

    pub fn register(&mut self, c: usize, count: u32) -> Call {
        let first = self.device_word(c);
        let id = self.message_id(c);
        let message = if count == 0 {
            words(first, id, 0x101, &[0])
        } else {
            let port = self.port(c);
            words(first, id, 0x101, &[count, port])
        };
        self.call(c, SERVER, message)
    }

    pub fn cancel(&mut self, c: usize) -> Call {
        let rows = self.rows(c);
        let request = if !rows.is_empty() && self.rng.percent(75) {
            self.rng.pick(&rows).request
        } else {
            self.fresh(c, false)
        };
        self.cancel_of(c, request)
    }

    pub fn close(&mut self, c: usize) -> Call {
        let count = self.rng.pick(&[0, 0, 0, 1, 5, 12, 40]);
        let skipped = self.rng.bytes(count);
        self.call(c, CLOSE, skipped)
    }

    /// A retract, in so many of a hundred, or a close.
    pub fn end(&mut self, c: usize, retract: usize) -> Call {
        if self.rng.percent(retract) {
            self.well_formed(c, 14)
        } else {
            self.close(c)
        }
    }

    /// A message of the kind in its proper shape, whatever the phase; 12 stands
    /// for a transfer out with NoAck.
    pub fn well_formed(&mut self, c: usize, kind: u8) -> Call {
        let id = self.message_id(c);
        match kind {
            1 => self.call(c, SERVER, words(0, id, 0x100, &[1])),
            2 => {
                let result = self.rng.pick(&[0, 0, 1, 0x7FFF_FFFF]);
                self.call(c, CLIENT, words(0, id, 1, &[result]))
            }
            3 => self.call(c, SERVER, words(first_word(3, 1), id, 0x100, &[1, 0, 0])),
            4 => self.call(c, CLIENT, words(first_word(2, 1), id, 0x100, &[1, 0, 0])),
            5 => self.call(c, CLIENT, words(first_word(1, 1), id, 0x100, &[])),
            6 => {
                let spec = self.device_spec(c);
                self.call(c, CLIENT, add_device(first_word(1, 1), id, &spec))
            }
            7 => {
                let count = self.rng.pick(&[0, 1, 1, 1, 1, 2, 0xFFFF_FFFF]);
                self.register(c, count)
            }
            8..=12 => {
                let request = self.fresh(c, kind >= 10);
                self.request(c, kind, request)
            }
            13 => self.cancel(c),
            14 => {
                let first = self.device_word(c);
                self.call(c, SERVER, words(first, id, 0x107, &[1]))
            }
            _ => {
                let fitting: Vec<Row> = self
                    .rows(c)
                    .into_iter()
                    .filter(|row| match kind {
                        15 => row.sort == Sort::Io,
                        16 => row.sort == Sort::In && row.limit > 0,
                        _ => row.sort != Sort::Io,
                    })
                    .collect();
                let row = if fitting.is_empty() {
                    Row {
                        request: self.fresh(c, false),
                        sort: Sort::Io,
                        limit: self.rng.between(1, 20) as u32,
                        number: 0,
                        marked: false,
                    }
                } else {
                    self.rng.pick(&fitting)
                };
                match kind {
                    15 => self.complete(
                        c,
                        Row {
                            sort: Sort::Io,
                            ..row
                        },
                    ),
                    16 => {
                        let mut data = self.allowed(row.limit);
                        if data.is_empty() {
                            data.push(0xA5);
                        }
                        self.data_completion_call(c, row.request, &data)
                    }
                    _ => {
                        let size = if row.sort == Sort::Out { row.limit } else { 0 };
                        self.plain_completion_call(c, row.request, size)
                    }
                }
            }
        }
    }

    /// A step that should be accepted, or, after a retract, one that comes too
    /// late.
    pub fn proper(&mut self, c: usize) -> Call {
        let phase = self.channel(c).phase;
        if phase < 5 && self.rng.one_in(100) {
            return self.close(c);
        }
        if phase != 5 && self.rng.percent(if phase == 6 { 35 } else { 10 }) {
            if let Some(call) = self.too_late(c) {
                return call;
            }
        }
        match phase {
            0..=3 => self.well_formed(c, phase + 1),
            4 => {
                let kind = if self.rng.percent(25) { 5 } else { 6 };
                self.well_formed(c, kind)
            }
            5 => self.ready(c),
            _ => {
                if self.rng.percent(20) {
                    self.close(c)
                } else {
                    let kind = self
                        .rng
                        .pick(&[1, 2, 3, 4, 5, 6, 7, 7, 8, 9, 10, 11, 12, 13, 14, 15, 16, 17]);
                    self.well_formed(c, kind)
                }
            }
        }
    }

    fn ready(&mut self, c: usize) -> Call {
        let first = self
            .while_unheard(c)
            .or_else(|| self.mark_or_end(c))
            .or_else(|| self.beyond_full(c));
        if let Some(call) = first {
            return call;
        }
        self.start_filling(c);
        match self.rng.below(100) {
            0..=2 => self.register(c, 1),
            3 => self.register(c, 0),
            4..=9 => self.cancel(c),
            _ => self.open_or_complete(c),
        }
    }

    /// Where no callback is given: often a completion all the same, or a callback.
    fn while_unheard(&mut self, c: usize) -> Option<Call> {
        if self.channel(c).callback.is_some() {
            return None;
        }
        let rows = self.rows(c);
        if !rows.is_empty() && self.rng.percent(35) {
            // Nothing is listening: the row stays open.
            let row = self.rng.pick(&rows);
            return Some(self.complete(c, row));
        }
        if self.rng.percent(60) {
            let count = self.rng.pick(&[1, 1, 1, 2, 0x8000_0000]);
            return Some(self.register(c, count));
        }
        None
    }

    fn is_full(&self, c: usize) -> bool {
        self.rows(c).len() == ROWS
    }

    /// The channel is being filled, and has rows that are still to be marked.
    fn is_marking(&self, c: usize) -> bool {
        self.filling[c] && self.marking[c] && !self.rows_with_mark(c, false).is_empty()
    }

    /// A cancel that marks one row more, or an end of a channel that has nowhere to
    /// get to.
    fn mark_or_end(&mut self, c: usize) -> Option<Call> {
        let (full, marking) = (self.is_full(c), self.is_marking(c));
        if marking && self.rng.percent(if full { 80 } else { 40 }) {
            let unmarked = self.rows_with_mark(c, false);
            let row = self.rng.pick(&unmarked);
            return Some(self.cancel_of(c, row.request));
        }
        // A channel on its way to the sixteenth row, or to the mark of each, is
        // left to get there.
        let on_its_way = self.filling[c] && !full || marking;
        if !on_its_way && self.rng.one_in(self.mix.end) {
            return Some(self.end(c, 65));
        }
        None
    }

    /// On a channel that has been filled: at times a request for which there is no
    /// row or whose id is open, and at times an end to the filling.
    fn beyond_full(&mut self, c: usize) -> Option<Call> {
        if !self.is_full(c) || !self.filling[c] {
            return None;
        }
        if !self.is_marking(c) && self.rng.percent(20) {
            self.filling[c] = false;
        }
        match self.rng.below(10) {
            0..=2 => Some(self.one_too_many(c)),
            3 => Some(self.open_again(c)),
            _ => None,
        }
    }

    /// Draws whether a drained channel is filled, and whether its rows are marked
    /// then.
    fn start_filling(&mut self, c: usize) {
        if self.rows(c).len() <= 1 && !self.filling[c] {
            self.filling[c] = self.rng.percent(self.mix.fill);
            self.marking[c] = self.rng.percent(50);
        }
    }

    fn open_or_complete(&mut self, c: usize) -> Call {
        let rows = self.rows(c);
        let opening = if self.is_full(c) {
            false
        } else if self.filling[c] {
            self.rng.percent(92)
        } else {
            rows.is_empty() || self.rng.percent(35)
        };
        if opening || self.channel(c).callback.is_none() || rows.is_empty() {
            return self.some_request(c);
        }
        let row = self.rng.pick(&rows);
        self.complete(c, row)
    }

    fn some_request(&mut self, c: usize) -> Call {
        let rows = self.rows(c);
        let no_ack = self.channel(c).no_ack_ms != 0;
        let kind = match self.rng.below(10) {
            0 | 1 => 8,
            2 | 3 => 9,
            4..=6 => 10,
            7 if no_ack => 12,
            _ => 11,
        };
        let request = if kind == 12 && !rows.is_empty() && self.rng.percent(40) {
            // NoAck skips answer 9, so an id that is open serves as well.
            self.rng.pick(&rows).request & !NO_ACK
        } else {
            self.fresh(c, kind >= 10)
        };
        self.request(c, kind, request)
    }
}
