//! A capture with every message that passes checks 3 to 8 made anew by the
//! writer out of the fields the reader finds in it (02 R-1).

use crate::body::Body;
use crate::capture::{Capture, Record};
use crate::kinds::{Kind, CLOSE, LINES, LOW_30};
use crate::table::Table;
use crate::wire::Cursor;
use crate::writer::Message;

/// What the reader finds in a message that is known to be of this kind.
pub fn fields(kind: Kind, bytes: &[u8]) -> Option<Message<'_>> {
    let mut head = Cursor::over(bytes);
    let first = head.word()?;
    Some(Message {
        interface: first & LOW_30,
        message_id: head.word()?,
        body: Body::read(kind, bytes)?,
    })
}

/// 12 is told by an accepted entry alone and is read as 11.
pub fn kind_of(number: u8) -> Option<Kind> {
    if number == Kind::NoAckTransferOut.number() {
        return Some(Kind::TransferOut);
    }
    LINES
        .iter()
        .map(|line| line.kind)
        .find(|kind| kind.number() == number)
}

/// `Err` is the number of the record that could not be made anew, counted from
/// 1: the reader and the writer would then disagree.
pub fn rebuild(bytes: &[u8]) -> Result<Vec<u8>, usize> {
    let capture = Capture::read(bytes);
    let mut table = Table::open(1);
    let mut out = Vec::with_capacity(bytes.len());
    for (before, record) in capture.records.iter().enumerate() {
        let entry = if record.side == CLOSE {
            table.close(record.channel, record.stamp);
            None
        } else {
            table.judge(record.channel, record.side, record.stamp, record.message)
        };
        // 9 to 14 are tried after 8, so such a message has passed 3 to 8.
        let passed = entry.filter(|entry| matches!(entry.answer, 0 | 9..=14));
        let message = match passed {
            None => record.message.to_vec(),
            Some(entry) => kind_of(entry.kind)
                .and_then(|kind| again(kind, record.message))
                .ok_or(before + 1)?,
        };
        let record = Record {
            message: &message,
            ..*record
        };
        record.write(&mut out);
    }
    out.extend(capture.cut);
    Ok(out)
}

fn again(kind: Kind, bytes: &[u8]) -> Option<Vec<u8>> {
    let mut room = vec![0; bytes.len()];
    let written = fields(kind, bytes)?.write(&mut room).ok()?;
    (written == bytes.len()).then_some(room)
}
