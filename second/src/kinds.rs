//! The table of 01 "Header and kinds".

use crate::wire::Cursor;

pub const SERVER: u8 = 1;
pub const CLIENT: u8 = 2;
pub const CLOSE: u8 = 3;

/// InterfaceId is the low 30 bits of the first word (000 2.2.1).
pub const LOW_30: u32 = 0x3FFF_FFFF;

#[derive(Clone, Copy, Debug, PartialEq, Eq)]
#[repr(u8)]
pub enum Kind {
    CapabilityRequest = 1,
    CapabilityResponse = 2,
    ServerCreated = 3,
    ClientCreated = 4,
    AddVirtualChannel = 5,
    AddDevice = 6,
    RegisterCallback = 7,
    IoControl = 8,
    InternalIoControl = 9,
    TransferIn = 10,
    TransferOut = 11,
    /// Only ever written into an accepted entry; a refused one stays 11.
    NoAckTransferOut = 12,
    Cancel = 13,
    Retract = 14,
    IoCompletion = 15,
    UrbCompletion = 16,
    UrbCompletionNoData = 17,
    Closed = 18,
}

impl Kind {
    pub fn number(self) -> u8 {
        self as u8
    }
}

#[derive(Clone, Copy, Debug)]
pub enum Port {
    Fixed(u32),
    Device,
    Callback,
}

#[derive(Clone, Copy, Debug)]
pub struct Line {
    pub kind: Kind,
    pub side: u8,
    pub port: Port,
    pub mask: u32,
    /// `None`: the message has no FunctionId (000 2.2.3.2), so those four bytes
    /// are body and decide nothing here.
    pub function: Option<u32>,
    pub before: u8,
    pub after: u8,
}

const fn line(
    kind: Kind,
    side: u8,
    port: Port,
    mask: u32,
    function: Option<u32>,
    before: u8,
    after: u8,
) -> Line {
    Line {
        kind,
        side,
        port,
        mask,
        function,
        before,
        after,
    }
}

/// In the order of the page, since "where two kinds fit, the upper one" counts.
#[rustfmt::skip]
pub const LINES: [Line; 16] = [
    line(Kind::CapabilityRequest, SERVER, Port::Fixed(0), 0, Some(0x100), 0, 1),
    line(Kind::CapabilityResponse, CLIENT, Port::Fixed(0), 0, None, 1, 2),
    line(Kind::ServerCreated, SERVER, Port::Fixed(3), 1, Some(0x100), 2, 3),
    line(Kind::ClientCreated, CLIENT, Port::Fixed(2), 1, Some(0x100), 3, 4),
    line(Kind::AddVirtualChannel, CLIENT, Port::Fixed(1), 1, Some(0x100), 4, 4),
    line(Kind::AddDevice, CLIENT, Port::Fixed(1), 1, Some(0x101), 4, 5),
    line(Kind::Cancel, SERVER, Port::Device, 1, Some(0x100), 5, 5),
    line(Kind::RegisterCallback, SERVER, Port::Device, 1, Some(0x101), 5, 5),
    line(Kind::IoControl, SERVER, Port::Device, 1, Some(0x102), 5, 5),
    line(Kind::InternalIoControl, SERVER, Port::Device, 1, Some(0x103), 5, 5),
    line(Kind::TransferIn, SERVER, Port::Device, 1, Some(0x105), 5, 5),
    line(Kind::TransferOut, SERVER, Port::Device, 1, Some(0x106), 5, 5),
    line(Kind::Retract, SERVER, Port::Device, 1, Some(0x107), 5, 6),
    line(Kind::IoCompletion, CLIENT, Port::Callback, 1, Some(0x100), 5, 5),
    line(Kind::UrbCompletion, CLIENT, Port::Callback, 1, Some(0x101), 5, 5),
    line(Kind::UrbCompletionNoData, CLIENT, Port::Callback, 1, Some(0x102), 5, 5),
];

/// MessageId is left out on purpose: 01 gives it no part in any answer.
#[derive(Clone, Copy, Debug)]
pub struct Header {
    pub interface: u32,
    pub mask: u32,
    pub function: u32,
}

impl Header {
    pub fn read(message: &[u8]) -> Option<Header> {
        let mut cursor = Cursor::over(message);
        let first = cursor.word()?;
        cursor.word()?;
        let function = cursor.word()?;
        Some(Header {
            interface: first & LOW_30,
            mask: first >> 30,
            function,
        })
    }
}

pub fn find(
    side: u8,
    header: Header,
    device: Option<u32>,
    callback: Option<u32>,
) -> Option<&'static Line> {
    LINES.iter().find(|line| {
        let port = match line.port {
            Port::Fixed(id) => Some(id),
            Port::Device => device,
            Port::Callback => callback,
        };
        line.side == side
            && line.mask == header.mask
            && port == Some(header.interface)
            && line.function.is_none_or(|wanted| wanted == header.function)
    })
}

#[cfg(test)]
mod tests {
    use super::*;

    fn kind(side: u8, first: u32, function: u32, device: Option<u32>, callback: Option<u32>) -> u8 {
        let mut message = first.to_le_bytes().to_vec();
        message.extend([0; 4]);
        message.extend(function.to_le_bytes());
        let header = Header::read(&message).expect("twelve bytes");
        find(side, header, device, callback).map_or(0, |line| line.kind.number())
    }

    #[test]
    fn every_line_of_the_table_is_found() {
        let (d, c) = (Some(4), Some(5));
        assert_eq!(kind(1, 0, 0x100, None, None), 1);
        assert_eq!(kind(2, 0, 0x1234, None, None), 2);
        assert_eq!(kind(1, 0x4000_0003, 0x100, None, None), 3);
        assert_eq!(kind(2, 0x4000_0002, 0x100, None, None), 4);
        assert_eq!(kind(2, 0x4000_0001, 0x100, None, None), 5);
        assert_eq!(kind(2, 0x4000_0001, 0x101, None, None), 6);
        let device = [(0x100, 13), (0x101, 7), (0x102, 8), (0x103, 9), (0x104, 0)];
        for (function, wanted) in device {
            assert_eq!(kind(1, 0x4000_0004, function, d, c), wanted);
        }
        for (function, wanted) in [(0x105, 10), (0x106, 11), (0x107, 14), (0x108, 0)] {
            assert_eq!(kind(1, 0x4000_0004, function, d, c), wanted);
        }
        for (function, wanted) in [(0x100, 15), (0x101, 16), (0x102, 17), (0x103, 0)] {
            assert_eq!(kind(2, 0x4000_0005, function, d, c), wanted);
        }
    }

    #[test]
    fn what_was_never_given_matches_nothing() {
        assert_eq!(kind(1, 0x4000_0004, 0x102, None, None), 0);
        assert_eq!(kind(2, 0x4000_0005, 0x100, Some(4), None), 0);
    }

    #[test]
    fn mask_belongs_to_the_kind() {
        for mask in [1, 2, 3] {
            assert_eq!(kind(1, mask << 30, 0x100, None, None), 0);
            assert_eq!(kind(2, mask << 30, 1, None, None), 0);
        }
        for mask in [0, 2, 3] {
            assert_eq!(kind(1, mask << 30 | 3, 0x100, None, None), 0);
            assert_eq!(kind(1, mask << 30 | 4, 0x105, Some(4), None), 0);
        }
    }

    #[test]
    fn release_and_query_give_no_kind() {
        for function in [1, 2] {
            assert_eq!(kind(1, 0x4000_0004, function, Some(4), Some(5)), 0);
            assert_eq!(kind(2, 0x4000_0005, function, Some(4), Some(5)), 0);
            assert_eq!(kind(1, 0, function, None, None), 0);
            assert_eq!(kind(2, 0x4000_0000, function, None, None), 0);
        }
    }

    #[test]
    fn the_upper_of_two_fitting_kinds_counts() {
        assert_eq!(kind(1, 0x4000_0003, 0x100, Some(3), None), 3);
        assert_eq!(kind(2, 0x4000_0001, 0x101, None, Some(1)), 6);
        assert_eq!(kind(2, 0x4000_0002, 0x100, None, Some(2)), 4);
    }
}
