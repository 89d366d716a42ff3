//! The writer of messages: 02 R-1.
//!
//! It takes the fields as 000 names them and works out every size and count
//! that follows from others. What a field may hold is asked of `body` and `urb`,
//! so that a value has one reading in this program; what is added here is what a
//! read message cannot be wrong in, because there the bytes say it once and a
//! caller says it twice (a count beside the things counted, a function beside
//! its structure) or says it wider than its place.

use crate::body::{Body, NewDevice, Text, UrbResult};
use crate::compose::Put;
use crate::kinds::{Line, Port, LINES, LOW_30};
use crate::urb::{
    Interface, Pipe, Structure, Urb, ABORT_PIPE, BULK_OR_INTERRUPT_TRANSFER, CONTROL_TRANSFER,
    GET_CURRENT_FRAME_NUMBER, ISOCH_TRANSFER, LOW_31, SELECT_CONFIGURATION, SELECT_INTERFACE,
    SYNC_RESET_PIPE_AND_CLEAR_STALL,
};

const MOST_BYTES: usize = 65_535;

/// Whether the device allows NoAck is known to a table and not to the writer,
/// so a device that does is taken as given.
const SOME_NO_ACK_MS: u32 = 10;

#[derive(Clone, Copy, Debug, PartialEq, Eq)]
pub enum Refusal {
    /// 15: a field outside its values, or a message over 65,535 bytes.
    Field,
    /// 16: the lent buffer is shorter than the message.
    Room,
}

impl Refusal {
    pub fn number(self) -> u8 {
        match self {
            Refusal::Field => 15,
            Refusal::Room => 16,
        }
    }
}

#[derive(Clone, Debug, PartialEq, Eq)]
pub struct Message<'m> {
    /// Of the device or callback; kinds 1 to 6 have one of their own and do not
    /// look at this.
    pub interface: u32,
    pub message_id: u32,
    pub body: Body<'m>,
}

impl Message<'_> {
    /// Writes into the front of `room` and gives the number of bytes.
    pub fn write(&self, room: &mut [u8]) -> Result<usize, Refusal> {
        lay(self.bytes().ok_or(Refusal::Field)?, room)
    }

    /// `None` is answer 15.
    fn bytes(&self) -> Option<Vec<u8>> {
        let line = line_of(&self.body)?;
        let interface = match line.port {
            Port::Fixed(id) => id,
            Port::Device | Port::Callback => (4..=LOW_30)
                .contains(&self.interface)
                .then_some(self.interface)?,
        };
        if !agrees(&self.body) || !self.body.values_hold(SOME_NO_ACK_MS) {
            return None;
        }
        let mut out = Vec::new();
        out.put32(line.mask << 30 | interface);
        out.put32(self.message_id);
        if let Some(function) = line.function {
            out.put32(function);
        }
        put_body(&mut out, &self.body)?;
        (out.len() <= MOST_BYTES).then_some(out)
    }
}

/// One interface as it stands in a message, by itself.
pub fn write_interface(interface: &Interface, room: &mut [u8]) -> Result<usize, Refusal> {
    if !interface.limits_hold() {
        return Err(Refusal::Field);
    }
    let mut out = Vec::new();
    put_interface(&mut out, interface).ok_or(Refusal::Field)?;
    lay(out, room)
}

/// The only place where the lent buffer is touched.
fn lay(bytes: Vec<u8>, room: &mut [u8]) -> Result<usize, Refusal> {
    let front = room.get_mut(..bytes.len()).ok_or(Refusal::Room)?;
    front.copy_from_slice(&bytes);
    Ok(bytes.len())
}

/// Interface, mask and function are those of the table of kinds.
fn line_of(body: &Body) -> Option<&'static Line> {
    LINES.iter().find(|line| line.kind == body.kind())
}

/// What a caller says twice has to be said alike.
fn agrees(body: &Body) -> bool {
    match body {
        Body::RegisterCallback { count, callback } => (*count != 0) == callback.is_some(),
        Body::AddDevice(device) => texts(device).iter().all(|text| text.0.len() % 2 == 0),
        Body::TransferIn { urb, .. } | Body::TransferOut { urb, .. } => urb_agrees(urb),
        _ => true,
    }
}

fn texts<'m>(device: &NewDevice<'m>) -> [Text<'m>; 4] {
    [
        device.instance_id,
        device.hardware_ids,
        device.compatible_ids,
        device.container_id,
    ]
}

fn urb_agrees(urb: &Urb) -> bool {
    let (functions, inside): (&[u16], bool) = match &urb.structure {
        Structure::SelectConfiguration {
            descriptor_flag,
            count,
            interfaces,
            descriptor,
        } => (
            &[SELECT_CONFIGURATION],
            *count as usize == interfaces.len()
                && match descriptor_flag {
                    0 => descriptor.is_empty(),
                    _ => descriptor.len() >= 9,
                },
        ),
        Structure::SelectInterface { interfaces, .. } => {
            (&[SELECT_INTERFACE], interfaces.len() == 1)
        }
        Structure::CurrentFrameNumber => (&[GET_CURRENT_FRAME_NUMBER], true),
        Structure::Pipe { .. } => (&[ABORT_PIPE, SYNC_RESET_PIPE_AND_CLEAR_STALL], true),
        Structure::BulkOrInterrupt { .. } => (&[BULK_OR_INTERRUPT_TRANSFER], true),
        Structure::Control { setup, .. } => (&[CONTROL_TRANSFER], setup.len() == 8),
        Structure::Isoch { packets, .. } => (&[ISOCH_TRANSFER], packets.len() % 12 == 0),
        Structure::Unknown => (&[], false),
    };
    inside
        && urb.request <= LOW_31
        && functions
            .iter()
            .any(|function| u32::from(*function) == urb.function)
}

/// A size field of 32 bits and the bytes it counts.
fn put_counted(out: &mut Vec<u8>, bytes: &[u8]) -> Option<()> {
    out.put32(u32::try_from(bytes.len()).ok()?);
    out.extend(bytes);
    Some(())
}

fn put_words(out: &mut Vec<u8>, words: &[u32]) {
    for word in words {
        out.put32(*word);
    }
}

/// `None` where a number is too wide for its place.
fn put_body(out: &mut Vec<u8>, body: &Body) -> Option<()> {
    match body {
        Body::CapabilityRequest { value } => out.put32(*value),
        Body::CapabilityResponse { value, result } => put_words(out, &[*value, *result]),
        Body::Created {
            major,
            minor,
            capabilities,
            ..
        } => put_words(out, &[*major, *minor, *capabilities]),
        Body::AddVirtualChannel => {}
        Body::AddDevice(device) => put_device(out, device)?,
        Body::RegisterCallback { count, callback } => {
            out.put32(*count);
            if let Some(callback) = callback {
                out.put32(*callback);
            }
        }
        Body::Io {
            code,
            input,
            out_size,
            request,
            ..
        } => {
            out.put32(*code);
            put_counted(out, input)?;
            put_words(out, &[*out_size, *request]);
        }
        Body::TransferIn { urb, out_size } => {
            put_counted(out, &urb_bytes(urb)?)?;
            out.put32(*out_size);
        }
        Body::TransferOut { urb, data } => {
            put_counted(out, &urb_bytes(urb)?)?;
            put_counted(out, data)?;
        }
        Body::Cancel { request } => out.put32(*request),
        Body::Retract { reason } => out.put32(*reason),
        Body::IoCompletion {
            request,
            hresult,
            information,
            data,
        } => {
            put_words(out, &[*request, *hresult, *information]);
            put_counted(out, data)?;
        }
        Body::UrbCompletion {
            request,
            result,
            hresult,
            data,
        } => {
            out.put32(*request);
            put_counted(out, &result_bytes(result)?)?;
            out.put32(*hresult);
            put_counted(out, data)?;
        }
        Body::UrbCompletionNoData {
            request,
            result,
            hresult,
            size,
        } => {
            out.put32(*request);
            put_counted(out, &result_bytes(result)?)?;
            put_words(out, &[*hresult, *size]);
        }
    }
    Some(())
}

/// 000 2.2.4.2: a text is counted in units and not in bytes.
fn put_device(out: &mut Vec<u8>, device: &NewDevice) -> Option<()> {
    put_words(out, &[device.devices, device.interface]);
    for text in texts(device) {
        out.put32(u32::try_from(text.units()).ok()?);
        out.extend(text.0);
    }
    put_words(
        out,
        &[
            device.cb_size,
            device.bus_version,
            device.usbdi_version,
            device.usb_version,
            device.host,
            device.speed,
            device.no_ack_ms,
        ],
    );
    Some(())
}

/// The TS_URB_HEADER with its Size, and the structure behind it.
fn urb_bytes(urb: &Urb) -> Option<Vec<u8>> {
    let mut rest = Vec::new();
    match &urb.structure {
        Structure::SelectConfiguration {
            descriptor_flag,
            count,
            interfaces,
            descriptor,
        } => {
            rest.put8(u8::try_from(*descriptor_flag).ok()?);
            // Padding (000 2.2.9.2).
            rest.extend([0; 3]);
            rest.put32(*count);
            for interface in interfaces {
                put_interface(&mut rest, interface)?;
            }
            rest.extend(*descriptor);
        }
        Structure::SelectInterface {
            configuration,
            interfaces,
        } => {
            rest.put32(*configuration);
            for interface in interfaces {
                put_interface(&mut rest, interface)?;
            }
        }
        Structure::CurrentFrameNumber => {}
        Structure::Pipe { handle } => rest.put32(*handle),
        Structure::BulkOrInterrupt { handle, flags } => put_words(&mut rest, &[*handle, *flags]),
        Structure::Control {
            handle,
            flags,
            setup,
        } => {
            put_words(&mut rest, &[*handle, *flags]);
            rest.extend(*setup);
        }
        Structure::Isoch {
            handle,
            flags,
            start_frame,
            error_count,
            packets,
        } => {
            let count = u32::try_from(packets.len() / 12).ok()?;
            put_words(
                &mut rest,
                &[*handle, *flags, *start_frame, count, *error_count],
            );
            rest.extend(*packets);
        }
        Structure::Unknown => return None,
    }
    let mut out = Vec::new();
    out.put16(u16::try_from(8 + rest.len()).ok()?);
    out.put16(u16::try_from(urb.function).ok()?);
    out.put32(urb.request | u32::from(urb.no_ack) << 31);
    out.extend(rest);
    Some(out)
}

fn put_interface(out: &mut Vec<u8>, interface: &Interface) -> Option<()> {
    let pipes = interface.pipes.len();
    out.put16(u16::try_from(12 + 12 * pipes).ok()?);
    out.put16(interface.pipes_expected);
    out.put8(interface.number);
    out.put8(interface.alternate);
    // Padding (000 2.2.9.1.2).
    out.put16(0);
    out.put32(u32::try_from(pipes).ok()?);
    for pipe in &interface.pipes {
        put_pipe(out, pipe);
    }
    Some(())
}

fn put_pipe(out: &mut Vec<u8>, pipe: &Pipe) {
    out.put16(pipe.max_packet);
    // Padding (000 2.2.9.1.3).
    out.put16(0);
    put_words(out, &[pipe.max_transfer, pipe.flags]);
}

fn result_bytes(result: &UrbResult) -> Option<Vec<u8>> {
    let mut out = Vec::new();
    out.put16(u16::try_from(8 + result.more.len()).ok()?);
    // Padding (000 2.2.10.1.1).
    out.put16(0);
    out.put32(result.status);
    out.extend(result.more);
    Some(out)
}
