//! TsUrb: 01 "Bodies after the 12 bytes", the two paragraphs on TsUrb, over the
//! layouts of 000 2.2.9.
//!
//! `Urb::read` is the part that can give 7 and `Urb::values_hold` the part that
//! can give 8. They are apart so that no limit is looked at before the last
//! byte has been placed. A `Urb` is also what the writer (02 R-1) is given, so
//! its numbers are as wide as a caller may give them.

use crate::wire::Cursor;

pub const SELECT_CONFIGURATION: u16 = 0x0000;
pub const SELECT_INTERFACE: u16 = 0x0001;
pub const ABORT_PIPE: u16 = 0x0002;
pub const GET_CURRENT_FRAME_NUMBER: u16 = 0x0007;
pub const CONTROL_TRANSFER: u16 = 0x0008;
pub const BULK_OR_INTERRUPT_TRANSFER: u16 = 0x0009;
pub const ISOCH_TRANSFER: u16 = 0x000A;
pub const SYNC_RESET_PIPE_AND_CLEAR_STALL: u16 = 0x001E;

/// A RequestId of a transfer has 31 bits, the top bit is NoAck.
pub const LOW_31: u32 = 0x7FFF_FFFF;

const MOST_PACKETS: usize = 1024;
const MOST_INTERFACES: u32 = 32;
const MOST_PIPES: usize = 30;

/// 000 2.2.9.1.3 without its padding, so that two are equal where their fields
/// are.
#[derive(Clone, Copy, Debug, PartialEq, Eq)]
pub struct Pipe {
    pub max_packet: u16,
    pub max_transfer: u32,
    pub flags: u32,
}

/// 000 2.2.9.1.2 without its padding. Length and NumberOfPipes follow from the
/// pipes.
#[derive(Clone, Debug, PartialEq, Eq)]
pub struct Interface {
    pub pipes_expected: u16,
    pub number: u8,
    pub alternate: u8,
    pub pipes: Vec<Pipe>,
}

impl Pipe {
    fn read(cursor: &mut Cursor) -> Option<Pipe> {
        let max_packet = cursor.half()?;
        cursor.take(2)?;
        Some(Pipe {
            max_packet,
            max_transfer: cursor.word()?,
            flags: cursor.word()?,
        })
    }
}

impl Interface {
    /// Length at 0, NumberOfPipesExpected at 2, two numbers and padding from 4,
    /// NumberOfPipes at 8.
    fn read(cursor: &mut Cursor) -> Option<Interface> {
        let length = cursor.half()?;
        let pipes_expected = cursor.half()?;
        let number = cursor.byte()?;
        let alternate = cursor.byte()?;
        cursor.take(2)?;
        let count = cursor.word()?;
        let pipe_bytes = 12 * u64::from(count);
        if u64::from(length) != 12 + pipe_bytes {
            return None;
        }
        let mut inside = Cursor::over(cursor.take(pipe_bytes)?);
        let mut pipes = Vec::new();
        while inside.left() > 0 {
            pipes.push(Pipe::read(&mut inside)?);
        }
        Some(Interface {
            pipes_expected,
            number,
            alternate,
            pipes,
        })
    }

    /// Interfaces one behind the other that use up the bytes exactly.
    pub fn list(bytes: &[u8]) -> Option<Vec<Interface>> {
        let mut cursor = Cursor::over(bytes);
        let mut list = Vec::new();
        while cursor.left() > 0 {
            list.push(Interface::read(&mut cursor)?);
        }
        Some(list)
    }

    pub fn limits_hold(&self) -> bool {
        self.pipes.len() <= MOST_PIPES
    }
}

/// What stands behind the TS_URB_HEADER. NumInterfaces and the descriptor flag
/// are fields of their own: a caller of the writer gives them beside what they
/// speak about.
#[derive(Clone, Debug, PartialEq, Eq)]
pub enum Structure<'m> {
    SelectConfiguration {
        descriptor_flag: u32,
        count: u32,
        interfaces: Vec<Interface>,
        descriptor: &'m [u8],
    },
    SelectInterface {
        configuration: u32,
        interfaces: Vec<Interface>,
    },
    CurrentFrameNumber,
    Pipe {
        handle: u32,
    },
    BulkOrInterrupt {
        handle: u32,
        flags: u32,
    },
    Control {
        handle: u32,
        flags: u32,
        setup: &'m [u8],
    },
    Isoch {
        handle: u32,
        flags: u32,
        start_frame: u32,
        error_count: u32,
        /// 12 bytes each; nothing in them is held to a value.
        packets: &'m [u8],
    },
    /// Of a function 01 does not list, whose inside is not known.
    Unknown,
}

#[derive(Clone, Debug, PartialEq, Eq)]
pub struct Urb<'m> {
    pub function: u32,
    /// The NoAck bit is never in here.
    pub request: u32,
    pub no_ack: bool,
    pub structure: Structure<'m>,
}

impl<'m> Urb<'m> {
    /// `bytes` are the CbTsUrb bytes of the message, so their number is CbTsUrb.
    pub fn read(bytes: &'m [u8]) -> Option<Urb<'m>> {
        let mut cursor = Cursor::over(bytes);
        let size = cursor.half()?;
        let function = cursor.half()?;
        let word = cursor.word()?;
        if bytes.len() as u64 != u64::from(size) {
            return None;
        }
        let structure = match function {
            SELECT_CONFIGURATION => {
                let descriptor_flag = u32::from(cursor.byte()?);
                cursor.take(3)?;
                let count = cursor.word()?;
                let mut interfaces = Vec::new();
                // A count no message could hold stops here at the first
                // interface that is not there.
                for _ in 0..count {
                    interfaces.push(Interface::read(&mut cursor)?);
                }
                let descriptor = if descriptor_flag == 0 {
                    cursor.take(0)?
                } else if cursor.left() < 9 {
                    return None;
                } else {
                    cursor.take(cursor.left())?
                };
                Structure::SelectConfiguration {
                    descriptor_flag,
                    count,
                    interfaces,
                    descriptor,
                }
            }
            SELECT_INTERFACE => Structure::SelectInterface {
                configuration: cursor.word()?,
                interfaces: vec![Interface::read(&mut cursor)?],
            },
            GET_CURRENT_FRAME_NUMBER => Structure::CurrentFrameNumber,
            ABORT_PIPE | SYNC_RESET_PIPE_AND_CLEAR_STALL => Structure::Pipe {
                handle: cursor.word()?,
            },
            BULK_OR_INTERRUPT_TRANSFER => Structure::BulkOrInterrupt {
                handle: cursor.word()?,
                flags: cursor.word()?,
            },
            CONTROL_TRANSFER => Structure::Control {
                handle: cursor.word()?,
                flags: cursor.word()?,
                setup: cursor.take(8)?,
            },
            ISOCH_TRANSFER => {
                // PipeHandle, TransferFlags and StartFrame stand before the
                // count at byte 20, ErrorCount after it (000 2.2.9.8).
                let handle = cursor.word()?;
                let flags = cursor.word()?;
                let start_frame = cursor.word()?;
                let count = cursor.word()?;
                let error_count = cursor.word()?;
                Structure::Isoch {
                    handle,
                    flags,
                    start_frame,
                    error_count,
                    packets: cursor.take(12 * u64::from(count))?,
                }
            }
            _ => {
                // 01 states no size for a function it does not list, so only
                // the outer sizes can fail before the function itself does.
                cursor.take(cursor.left())?;
                Structure::Unknown
            }
        };
        cursor.end()?;
        Some(Urb {
            function: u32::from(function),
            request: word & LOW_31,
            no_ack: word > LOW_31,
            structure,
        })
    }

    /// `inward` is kind 10. `no_ack_ms` is the channel's device's.
    pub fn values_hold(&self, inward: bool, out_size: u32, no_ack_ms: u32) -> bool {
        let within = match &self.structure {
            Structure::SelectConfiguration {
                descriptor_flag,
                count,
                interfaces,
                descriptor,
            } => {
                *count <= MOST_INTERFACES
                    && interfaces.iter().all(Interface::limits_hold)
                    && (*descriptor_flag == 0 || descriptor.starts_with(&[9, 2]))
            }
            Structure::SelectInterface { interfaces, .. } => {
                interfaces.iter().all(Interface::limits_hold)
            }
            Structure::Isoch { packets, .. } => packets.len() <= 12 * MOST_PACKETS,
            Structure::CurrentFrameNumber
            | Structure::Pipe { .. }
            | Structure::BulkOrInterrupt { .. }
            | Structure::Control { .. } => true,
            Structure::Unknown => false,
        };
        let carries_data = matches!(
            self.structure,
            Structure::Control { .. } | Structure::BulkOrInterrupt { .. } | Structure::Isoch { .. }
        );
        let isoch = matches!(self.structure, Structure::Isoch { .. });
        let direction = carries_data || (inward && out_size == 0);
        let ack = !self.no_ack || (!inward && isoch && no_ack_ms != 0);
        within && direction && ack
    }
}
