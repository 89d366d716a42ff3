//! Writing messages. What a rule of 01 derives from something else (a count, a
//! size) is a parameter here, so that a caller can also write it wrongly.

use crate::kinds::LOW_30;

pub trait Put {
    fn put8(&mut self, value: u8);
    fn put16(&mut self, value: u16);
    fn put32(&mut self, value: u32);
}

impl Put for Vec<u8> {
    fn put8(&mut self, value: u8) {
        self.push(value);
    }

    fn put16(&mut self, value: u16) {
        self.extend(value.to_le_bytes());
    }

    fn put32(&mut self, value: u32) {
        self.extend(value.to_le_bytes());
    }
}

pub fn get32(message: &[u8], at: usize) -> u32 {
    let part = &message[at..at + 4];
    u32::from_le_bytes([part[0], part[1], part[2], part[3]])
}

pub fn set32(message: &mut [u8], at: usize, value: u32) {
    message[at..at + 4].copy_from_slice(&value.to_le_bytes());
}

pub fn set16(message: &mut [u8], at: usize, value: u16) {
    message[at..at + 2].copy_from_slice(&value.to_le_bytes());
}

pub fn first_word(interface: u32, mask: u32) -> u32 {
    interface & LOW_30 | mask << 30
}

/// The header of 000 2.2.1 and words behind it.
pub fn words(first: u32, message_id: u32, function: u32, body: &[u32]) -> Vec<u8> {
    let mut out = Vec::new();
    out.put32(first);
    out.put32(message_id);
    out.put32(function);
    for word in body {
        out.put32(*word);
    }
    out
}

/// The three words of a header, for the messages that have more than words
/// behind them.
#[derive(Clone, Copy)]
pub struct Head {
    pub first: u32,
    pub message_id: u32,
    pub function: u32,
}

impl Head {
    fn with(self, body: &[u32]) -> Vec<u8> {
        words(self.first, self.message_id, self.function, body)
    }
}

#[derive(Clone)]
pub struct Text {
    pub count: u32,
    pub units: Vec<u16>,
}

impl Text {
    pub fn of(units: Vec<u16>) -> Text {
        Text {
            count: units.len() as u32,
            units,
        }
    }
}

/// 000 2.2.4.2; `capabilities` in the order of 000 2.2.11.
#[derive(Clone)]
pub struct DeviceSpec {
    pub devices: u32,
    pub interface: u32,
    pub texts: [Text; 4],
    pub capabilities: [u32; 7],
}

pub fn add_device(first: u32, message_id: u32, spec: &DeviceSpec) -> Vec<u8> {
    let mut out = words(first, message_id, 0x101, &[spec.devices, spec.interface]);
    for text in &spec.texts {
        out.put32(text.count);
        for unit in &text.units {
            out.put16(*unit);
        }
    }
    for word in spec.capabilities {
        out.put32(word);
    }
    out
}

pub fn io_control(
    head: Head,
    code: u32,
    input_size: u32,
    input: &[u8],
    out_size: u32,
    request: u32,
) -> Vec<u8> {
    let mut out = head.with(&[code, input_size]);
    out.extend(input);
    out.put32(out_size);
    out.put32(request);
    out
}

/// Kinds 10 and 11: `data` is empty for kind 10.
pub fn transfer(head: Head, cb_ts_urb: u32, urb: &[u8], out_size: u32, data: &[u8]) -> Vec<u8> {
    let mut out = head.with(&[cb_ts_urb]);
    out.extend(urb);
    out.put32(out_size);
    out.extend(data);
    out
}

pub fn io_completion(
    head: Head,
    request: u32,
    hresult: u32,
    information: u32,
    size: u32,
    data: &[u8],
) -> Vec<u8> {
    let mut out = head.with(&[request, hresult, information, size]);
    out.extend(data);
    out
}

/// Kinds 16 and 17, which differ in the function and the data.
pub fn urb_completion(
    head: Head,
    request: u32,
    cb_result: u32,
    result: &[u8],
    hresult: u32,
    size: u32,
    data: &[u8],
) -> Vec<u8> {
    let mut out = head.with(&[request, cb_result]);
    out.extend(result);
    out.put32(hresult);
    out.put32(size);
    out.extend(data);
    out
}

/// A TsUrb whose Size is right for what is written into it.
pub fn urb(function: u16, request_word: u32, rest: &[u8]) -> Vec<u8> {
    let mut out = Vec::new();
    out.put16((8 + rest.len()) as u16);
    out.put16(function);
    out.put32(request_word);
    out.extend(rest);
    out
}

/// 000 2.2.9.1.2: `pipe_bytes` are the pipes as written, whatever `count` says.
pub fn interface(length: u16, settings: [u8; 6], count: u32, pipe_bytes: &[u8]) -> Vec<u8> {
    let mut out = Vec::new();
    out.put16(length);
    out.extend(settings);
    out.put32(count);
    out.extend(pipe_bytes);
    out
}

/// What follows the header of TS_URB_SELECT_CONFIGURATION (000 2.2.9.2).
pub fn configuration(
    flag: u8,
    padding: [u8; 3],
    count: u32,
    interfaces: &[u8],
    descriptor: &[u8],
) -> Vec<u8> {
    let mut out = vec![flag];
    out.extend(padding);
    out.put32(count);
    out.extend(interfaces);
    out.extend(descriptor);
    out
}

/// A TS_URB_RESULT: a header of 8 bytes and bytes the gate does not look at.
pub fn result(size: u16, padding: u16, status: u32, more: &[u8]) -> Vec<u8> {
    let mut out = Vec::new();
    out.put16(size);
    out.put16(padding);
    out.put32(status);
    out.extend(more);
    out
}
