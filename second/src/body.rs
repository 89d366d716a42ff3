//! 01 "Bodies after the 12 bytes".
//!
//! As in `urb`, `Body::read` is all of answer 7 and `Body::values_hold` all of
//! answer 8, so every 7 of a message is tried before any 8 of it. A `Body` holds
//! every field of its message that is not a count of another, so that the writer
//! can make the message again from it.

use crate::kinds::{Kind, LOW_30};
use crate::urb::Urb;
use crate::wire::Cursor;

const MOST_UNITS: usize = 512;

/// The units of one counted text, two bytes each.
#[derive(Clone, Copy, Debug, PartialEq, Eq)]
pub struct Text<'m>(pub &'m [u8]);

impl<'m> Text<'m> {
    fn read(cursor: &mut Cursor<'m>) -> Option<Text<'m>> {
        let count = cursor.word()?;
        cursor.take(2 * u64::from(count)).map(Text)
    }

    pub fn units(&self) -> usize {
        self.0.len() / 2
    }

    /// `zeros` is how many closing zero units a text of this sort has; a text
    /// shorter than that has as many as it has units.
    fn holds(&self, zeros: usize) -> bool {
        let wanted = zeros.min(self.units());
        self.units() <= MOST_UNITS && self.0.iter().rev().take(2 * wanted).all(|byte| *byte == 0)
    }
}

/// 000 2.2.4.2 and 2.2.11.
#[derive(Clone, Copy, Debug, PartialEq, Eq)]
pub struct NewDevice<'m> {
    pub devices: u32,
    pub interface: u32,
    pub instance_id: Text<'m>,
    pub hardware_ids: Text<'m>,
    pub compatible_ids: Text<'m>,
    pub container_id: Text<'m>,
    pub cb_size: u32,
    pub bus_version: u32,
    pub usbdi_version: u32,
    pub usb_version: u32,
    pub host: u32,
    pub speed: u32,
    pub no_ack_ms: u32,
}

impl<'m> NewDevice<'m> {
    fn read(cursor: &mut Cursor<'m>) -> Option<NewDevice<'m>> {
        Some(NewDevice {
            devices: cursor.word()?,
            interface: cursor.word()?,
            instance_id: Text::read(cursor)?,
            hardware_ids: Text::read(cursor)?,
            compatible_ids: Text::read(cursor)?,
            container_id: Text::read(cursor)?,
            cb_size: cursor.word()?,
            bus_version: cursor.word()?,
            usbdi_version: cursor.word()?,
            usb_version: cursor.word()?,
            host: cursor.word()?,
            speed: cursor.word()?,
            no_ack_ms: cursor.word()?,
        })
    }

    fn values_hold(&self) -> bool {
        self.devices == 1
            && given_id(self.interface)
            && self.instance_id.holds(1)
            && self.hardware_ids.holds(2)
            && self.compatible_ids.holds(2)
            && self.container_id.holds(1)
            && self.cb_size == 28
            && self.bus_version <= 2
            && matches!(self.usbdi_version, 0x500 | 0x600)
            && matches!(self.usb_version, 0x100 | 0x110 | 0x200)
            && self.host == 0
            && self.speed <= 1
            && !(self.bus_version == 0 && self.speed != 0)
            && (self.no_ack_ms == 0 || (10..=512).contains(&self.no_ack_ms))
    }
}

/// 0 to 3 are the default interfaces, which no device or callback may take.
fn given_id(id: u32) -> bool {
    id & LOW_30 > 3
}

/// A TS_URB_RESULT: UsbdStatus and what stands behind the 8 bytes of its header
/// (000 2.2.10.1.1), which is not looked at (01 "The gate's duties").
#[derive(Clone, Copy, Debug, PartialEq, Eq)]
pub struct UrbResult<'m> {
    pub status: u32,
    pub more: &'m [u8],
}

impl<'m> UrbResult<'m> {
    /// From CbTsUrbResult on.
    fn read(cursor: &mut Cursor<'m>) -> Option<UrbResult<'m>> {
        let result = cursor.counted()?;
        let mut inside = Cursor::over(result);
        let size = inside.half()?;
        inside.take(2)?;
        let status = inside.word()?;
        let more = inside.take(inside.left())?;
        (u64::from(size) == result.len() as u64).then_some(UrbResult { status, more })
    }
}

#[derive(Clone, Debug, PartialEq, Eq)]
pub enum Body<'m> {
    CapabilityRequest {
        value: u32,
    },
    CapabilityResponse {
        value: u32,
        result: u32,
    },
    /// Kind 3 from the server, 4 from the client.
    Created {
        server: bool,
        major: u32,
        minor: u32,
        capabilities: u32,
    },
    AddVirtualChannel,
    AddDevice(NewDevice<'m>),
    RegisterCallback {
        count: u32,
        callback: Option<u32>,
    },
    /// Kind 9 where `internal`, else 8.
    Io {
        internal: bool,
        code: u32,
        input: &'m [u8],
        out_size: u32,
        request: u32,
    },
    TransferIn {
        urb: Urb<'m>,
        out_size: u32,
    },
    /// Kinds 11 and 12: OutputBufferSize is the number of bytes of `data`.
    TransferOut {
        urb: Urb<'m>,
        data: &'m [u8],
    },
    Cancel {
        request: u32,
    },
    Retract {
        reason: u32,
    },
    /// Kind 15: OutputBufferSize is the number of bytes of `data`.
    IoCompletion {
        request: u32,
        hresult: u32,
        information: u32,
        data: &'m [u8],
    },
    /// Kind 16: OutputBufferSize is the number of bytes of `data`.
    UrbCompletion {
        request: u32,
        result: UrbResult<'m>,
        hresult: u32,
        data: &'m [u8],
    },
    /// Kind 17: a size with no bytes behind it.
    UrbCompletionNoData {
        request: u32,
        result: UrbResult<'m>,
        hresult: u32,
        size: u32,
    },
}

impl<'m> Body<'m> {
    /// The kind whose message this is the body of; 11 also with NoAck.
    pub fn kind(&self) -> Kind {
        match self {
            Body::CapabilityRequest { .. } => Kind::CapabilityRequest,
            Body::CapabilityResponse { .. } => Kind::CapabilityResponse,
            Body::Created { server: true, .. } => Kind::ServerCreated,
            Body::Created { server: false, .. } => Kind::ClientCreated,
            Body::AddVirtualChannel => Kind::AddVirtualChannel,
            Body::AddDevice(_) => Kind::AddDevice,
            Body::RegisterCallback { .. } => Kind::RegisterCallback,
            Body::Io {
                internal: false, ..
            } => Kind::IoControl,
            Body::Io { internal: true, .. } => Kind::InternalIoControl,
            Body::TransferIn { .. } => Kind::TransferIn,
            Body::TransferOut { .. } => Kind::TransferOut,
            Body::Cancel { .. } => Kind::Cancel,
            Body::Retract { .. } => Kind::Retract,
            Body::IoCompletion { .. } => Kind::IoCompletion,
            Body::UrbCompletion { .. } => Kind::UrbCompletion,
            Body::UrbCompletionNoData { .. } => Kind::UrbCompletionNoData,
        }
    }

    /// `None` is answer 7.
    pub fn read(kind: Kind, message: &'m [u8]) -> Option<Body<'m>> {
        let mut cursor = Cursor::over(message);
        // A capability response has no FunctionId, so its body starts earlier.
        cursor.take(if kind == Kind::CapabilityResponse {
            8
        } else {
            12
        })?;
        let body = match kind {
            Kind::CapabilityRequest => Body::CapabilityRequest {
                value: cursor.word()?,
            },
            Kind::CapabilityResponse => Body::CapabilityResponse {
                value: cursor.word()?,
                result: cursor.word()?,
            },
            Kind::ServerCreated | Kind::ClientCreated => Body::Created {
                server: kind == Kind::ServerCreated,
                major: cursor.word()?,
                minor: cursor.word()?,
                capabilities: cursor.word()?,
            },
            Kind::AddVirtualChannel => Body::AddVirtualChannel,
            Kind::AddDevice => Body::AddDevice(NewDevice::read(&mut cursor)?),
            Kind::RegisterCallback => {
                let count = cursor.word()?;
                let callback = if count == 0 {
                    None
                } else {
                    Some(cursor.word()?)
                };
                Body::RegisterCallback { count, callback }
            }
            Kind::IoControl | Kind::InternalIoControl => Body::Io {
                internal: kind == Kind::InternalIoControl,
                code: cursor.word()?,
                input: cursor.counted()?,
                out_size: cursor.word()?,
                request: cursor.word()?,
            },
            Kind::TransferIn => Body::TransferIn {
                urb: Urb::read(cursor.counted()?)?,
                out_size: cursor.word()?,
            },
            Kind::TransferOut | Kind::NoAckTransferOut => Body::TransferOut {
                urb: Urb::read(cursor.counted()?)?,
                data: cursor.counted()?,
            },
            Kind::Cancel => Body::Cancel {
                request: cursor.word()?,
            },
            Kind::Retract => Body::Retract {
                reason: cursor.word()?,
            },
            Kind::IoCompletion => Body::IoCompletion {
                request: cursor.word()?,
                hresult: cursor.word()?,
                information: cursor.word()?,
                data: cursor.counted()?,
            },
            Kind::UrbCompletion => Body::UrbCompletion {
                request: cursor.word()?,
                result: UrbResult::read(&mut cursor)?,
                hresult: cursor.word()?,
                data: cursor.counted()?,
            },
            Kind::UrbCompletionNoData => Body::UrbCompletionNoData {
                request: cursor.word()?,
                result: UrbResult::read(&mut cursor)?,
                hresult: cursor.word()?,
                size: cursor.word()?,
            },
            // A close is a call of its own and has no message.
            Kind::Closed => return None,
        };
        cursor.end()?;
        Some(body)
    }

    /// `false` is answer 8.
    pub fn values_hold(&self, no_ack_ms: u32) -> bool {
        match self {
            Body::CapabilityRequest { value } => *value == 1,
            Body::CapabilityResponse { value, result } => *value == 1 && result >> 31 == 0,
            Body::Created {
                major,
                minor,
                capabilities,
                ..
            } => (*major, *minor, *capabilities) == (1, 0, 0),
            Body::AddDevice(device) => device.values_hold(),
            Body::RegisterCallback { callback, .. } => callback.is_none_or(given_id),
            Body::TransferIn { urb, out_size } => urb.values_hold(true, *out_size, no_ack_ms),
            Body::TransferOut { urb, data } => urb.values_hold(false, data.len() as u32, no_ack_ms),
            Body::Retract { reason } => *reason == 1,
            Body::UrbCompletion { data, .. } => !data.is_empty(),
            Body::AddVirtualChannel
            | Body::Io { .. }
            | Body::Cancel { .. }
            | Body::IoCompletion { .. }
            | Body::UrbCompletionNoData { .. } => true,
        }
    }
}
