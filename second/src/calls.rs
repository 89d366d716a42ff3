//! Calls of the writer as a file, and what they print.
//!
//! A call gives its fields as plain numbers and its variable fields as parts of
//! lent bytes. Making a `Message` of them is where a part has to lie in the lent
//! bytes and where interfaces given as bytes have to add up; all else is the
//! writer's.

use std::fmt::Write;

use crate::body::{Body, NewDevice, Text, UrbResult};
use crate::compose::Put;
use crate::urb::{Interface, Pipe, Structure, Urb};
use crate::wire::Cursor;
use crate::writer::{write_interface, Message, Refusal};

pub const FIELDS: usize = 20;
/// Of the room and of the lent bytes.
pub const MOST_LENT: u32 = 70_000;
/// What every byte of the room is before the call.
pub const FILL: u8 = 0xA5;
/// The call that writes one interface from plain numbers.
pub const INTERFACE_CALL: u32 = 0;

#[derive(Clone, Debug, PartialEq, Eq)]
pub struct Call {
    pub kind: u32,
    pub room: u32,
    pub interface: u32,
    pub message_id: u32,
    pub fields: [u32; FIELDS],
    pub lent: Vec<u8>,
}

pub struct Done {
    pub answer: u8,
    pub written: usize,
    pub buffer: Vec<u8>,
}

impl Call {
    /// Where the bytes are no call, the text says why.
    fn read(cursor: &mut Cursor) -> Result<Call, String> {
        let cut = || "a call is cut".to_string();
        let mut word = || cursor.word().ok_or_else(cut);
        let kind = word()?;
        let room = word()?;
        let count = word()?;
        let interface = word()?;
        let message_id = word()?;
        let mut fields = [0; FIELDS];
        for field in &mut fields {
            *field = word()?;
        }
        if !matches!(kind, 0..=11 | 13..=17) {
            return Err(format!("no such kind of call: {kind}"));
        }
        if room > MOST_LENT || count > MOST_LENT {
            return Err(format!("more than {MOST_LENT} bytes lent"));
        }
        let lent = cursor.take(u64::from(count)).ok_or_else(cut)?.to_vec();
        Ok(Call {
            kind,
            room,
            interface,
            message_id,
            fields,
            lent,
        })
    }

    pub fn write(&self, out: &mut Vec<u8>) {
        out.put32(self.kind);
        out.put32(self.room);
        out.put32(self.lent.len() as u32);
        out.put32(self.interface);
        out.put32(self.message_id);
        for field in self.fields {
            out.put32(field);
        }
        out.extend(&self.lent);
    }

    pub fn perform(&self) -> Done {
        let mut buffer = vec![FILL; self.room as usize];
        let written = if self.kind == INTERFACE_CALL {
            self.numbered_interface()
                .ok_or(Refusal::Field)
                .and_then(|interface| write_interface(&interface, &mut buffer))
        } else {
            self.message()
                .ok_or(Refusal::Field)
                .and_then(|message| message.write(&mut buffer))
        };
        let (answer, written) = match written {
            Ok(count) => (0, count),
            Err(refusal) => (refusal.number(), 0),
        };
        Done {
            answer,
            written,
            buffer,
        }
    }

    /// The part of the lent bytes whose start and size stand at field `at`. An
    /// empty part has to start in them or at their end, too.
    fn part(&self, at: usize) -> Option<&[u8]> {
        let (start, size) = (u64::from(self.fields[at]), u64::from(self.fields[at + 1]));
        let mut cursor = Cursor::over(&self.lent);
        cursor.take(start)?;
        cursor.take(size)
    }

    /// `None` is answer 15.
    pub fn message(&self) -> Option<Message<'_>> {
        Some(Message {
            interface: self.interface,
            message_id: self.message_id,
            body: self.body()?,
        })
    }

    fn body(&self) -> Option<Body<'_>> {
        let f = &self.fields;
        Some(match self.kind {
            1 => Body::CapabilityRequest { value: f[0] },
            2 => Body::CapabilityResponse {
                value: f[0],
                result: f[1],
            },
            3 | 4 => Body::Created {
                server: self.kind == 3,
                major: f[0],
                minor: f[1],
                capabilities: f[2],
            },
            5 => Body::AddVirtualChannel,
            6 => Body::AddDevice(NewDevice {
                devices: f[0],
                interface: f[1],
                instance_id: Text(self.part(2)?),
                hardware_ids: Text(self.part(4)?),
                compatible_ids: Text(self.part(6)?),
                container_id: Text(self.part(8)?),
                cb_size: f[10],
                bus_version: f[11],
                usbdi_version: f[12],
                usb_version: f[13],
                host: f[14],
                speed: f[15],
                no_ack_ms: f[16],
            }),
            7 => Body::RegisterCallback {
                count: f[0],
                callback: (f[1] != 0).then_some(f[2]),
            },
            8 | 9 => Body::Io {
                internal: self.kind == 9,
                code: f[0],
                input: self.part(1)?,
                out_size: f[3],
                request: f[4],
            },
            10 => Body::TransferIn {
                urb: self.urb()?,
                out_size: f[0],
            },
            11 => Body::TransferOut {
                urb: self.urb()?,
                data: self.part(0)?,
            },
            13 => Body::Cancel { request: f[0] },
            14 => Body::Retract { reason: f[0] },
            15 => Body::IoCompletion {
                request: f[0],
                hresult: f[1],
                information: f[2],
                data: self.part(3)?,
            },
            16 => Body::UrbCompletion {
                request: f[0],
                result: self.result()?,
                hresult: f[4],
                data: self.part(5)?,
            },
            17 => Body::UrbCompletionNoData {
                request: f[0],
                result: self.result()?,
                hresult: f[4],
                size: f[5],
            },
            _ => return None,
        })
    }

    /// The result of kinds 16 and 17.
    fn result(&self) -> Option<UrbResult<'_>> {
        Some(UrbResult {
            status: self.fields[1],
            more: self.part(2)?,
        })
    }

    fn urb(&self) -> Option<Urb<'_>> {
        let f = &self.fields;
        let structure = match f[2] {
            0 => Structure::SelectConfiguration {
                descriptor_flag: f[6],
                count: f[7],
                interfaces: Interface::list(self.part(8)?)?,
                descriptor: self.part(10)?,
            },
            1 => Structure::SelectInterface {
                configuration: f[6],
                interfaces: Interface::list(self.part(7)?)?,
            },
            2 => Structure::CurrentFrameNumber,
            3 => Structure::Pipe { handle: f[6] },
            4 => Structure::BulkOrInterrupt {
                handle: f[6],
                flags: f[7],
            },
            5 => Structure::Control {
                handle: f[6],
                flags: f[7],
                setup: self.part(8)?,
            },
            6 => Structure::Isoch {
                handle: f[6],
                flags: f[7],
                start_frame: f[8],
                error_count: f[9],
                packets: self.part(10)?,
            },
            _ => return None,
        };
        // NoAck is one bit: a wider number does not fit its field.
        let no_ack = match f[5] {
            0 => false,
            1 => true,
            _ => return None,
        };
        Some(Urb {
            function: f[3],
            request: f[4],
            no_ack,
            structure,
        })
    }

    /// The interface of a call of kind 0: the lent bytes are rows of three
    /// numbers, and what is left of a number at their end is not used.
    pub fn numbered_interface(&self) -> Option<Interface> {
        let mut cursor = Cursor::over(&self.lent);
        let mut numbers = Vec::new();
        while let Some(number) = cursor.word() {
            numbers.push(number);
        }
        if numbers.len() % 3 != 0 {
            return None;
        }
        let mut rows = numbers.chunks_exact(3);
        let first = rows.next()?;
        let mut pipes = Vec::new();
        for row in rows {
            pipes.push(Pipe {
                max_packet: u16::try_from(row[0]).ok()?,
                max_transfer: row[1],
                flags: row[2],
            });
        }
        Some(Interface {
            pipes_expected: u16::try_from(first[0]).ok()?,
            number: u8::try_from(first[1]).ok()?,
            alternate: u8::try_from(first[2]).ok()?,
            pipes,
        })
    }
}

/// All calls of a file; where it is no file of calls, the text says why.
pub fn read(bytes: &[u8]) -> Result<Vec<Call>, String> {
    let mut cursor = Cursor::over(bytes);
    let mut calls = Vec::new();
    while cursor.left() > 0 {
        let at = bytes.len() as u64 - cursor.left();
        let call = Call::read(&mut cursor).map_err(|why| format!("{why}, at byte {at}"))?;
        calls.push(call);
    }
    Ok(calls)
}

pub fn file(calls: &[Call]) -> Vec<u8> {
    let mut out = Vec::new();
    for call in calls {
        call.write(&mut out);
    }
    out
}

/// A line for each call.
pub fn print(calls: &[Call]) -> String {
    let mut out = String::new();
    for call in calls {
        let done = call.perform();
        let _ = write!(out, "{} {} ", done.answer, done.written);
        for byte in done.buffer {
            let _ = write!(out, "{byte:02x}");
        }
        out.push('\n');
    }
    out
}
