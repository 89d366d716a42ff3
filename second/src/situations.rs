//! What a capture has of cancelled requests and their late completions (02
//! R-2), told from its records and their entries and not from the table's rows.
//!
//! "Cancelled" is here an open request that a cancel has named, "late" its
//! completion. A completion refused with 3 is too short for a RequestId, and one
//! refused with 6 has no open request left (`Behind`), so neither is counted as
//! refused and then accepted.

use std::collections::{BTreeMap, BTreeSet};
use std::fmt;

use crate::capture::Record;
use crate::journal::Entry;
use crate::kinds::{CLIENT, SERVER};
use crate::proper::NO_ACK;
use crate::table::{CHANNELS, ROWS};

/// Kinds of completions and the kind of the request that each may close.
const CLOSING: [(u8, u8); 5] = [(15, 8), (15, 9), (16, 10), (17, 10), (17, 11)];

/// What a late completion of each kind can be refused with while its request
/// stays open.
const REFUSALS: [(u8, &[u8]); 3] = [
    (15, &[2, 5, 7, 11, 12, 13, 14]),
    (16, &[2, 5, 7, 8, 11, 12, 13]),
    (17, &[2, 5, 7, 11, 12, 13]),
];

#[derive(Clone, Copy, Debug, PartialEq, Eq, PartialOrd, Ord)]
pub enum Message {
    Completion,
    Cancel,
}

#[derive(Clone, Copy, Debug, PartialEq, Eq, PartialOrd, Ord)]
pub enum End {
    Retract,
    Close,
}

/// Numbers in here are kinds, and `answer` is an answer.
#[derive(Clone, Copy, Debug, PartialEq, Eq, PartialOrd, Ord)]
pub enum Situation {
    FirstCancel(u8),
    SecondCancel,
    LaterCancel,
    CancelNotOpen,
    LateAccepted { completion: u8, request: u8 },
    LateRefused { completion: u8, answer: u8 },
    AcceptedAfter { answer: u8 },
    CompletionBehindLate(u8),
    CancelBehindLate,
    IdInUse(u8),
    NoAckIdInUse,
    OpenedAgain(u8),
    AgainCompleted,
    AgainCancelled,
    FullSome,
    FullAll,
    FullIdInUse,
    RoomAgain,
    EndSome(End),
    EndAll(End),
    Behind(End, Message),
    ReadyAgain(Message),
    OpenedAfterEnd,
}

impl Situation {
    pub fn all() -> Vec<Situation> {
        use Situation::*;
        let mut out: Vec<Situation> = (8..=11).map(FirstCancel).collect();
        out.extend([SecondCancel, LaterCancel, CancelNotOpen]);
        out.extend(CLOSING.map(|(completion, request)| LateAccepted {
            completion,
            request,
        }));
        for (completion, answers) in REFUSALS {
            out.extend(
                answers
                    .iter()
                    .map(|&answer| LateRefused { completion, answer }),
            );
        }
        out.extend([2, 5, 7, 8, 11, 12, 13, 14].map(|answer| AcceptedAfter { answer }));
        out.extend((15..=17).map(CompletionBehindLate));
        out.push(CancelBehindLate);
        out.extend((8..=11).map(IdInUse));
        out.push(NoAckIdInUse);
        out.extend((8..=11).map(OpenedAgain));
        out.extend([AgainCompleted, AgainCancelled]);
        out.extend([FullSome, FullAll, FullIdInUse, RoomAgain]);
        for end in [End::Retract, End::Close] {
            out.extend([EndSome(end), EndAll(end)]);
            out.extend([Message::Completion, Message::Cancel].map(|message| Behind(end, message)));
        }
        out.extend([Message::Completion, Message::Cancel].map(ReadyAgain));
        out.push(OpenedAfterEnd);
        out
    }
}

impl fmt::Display for Message {
    fn fmt(&self, out: &mut fmt::Formatter<'_>) -> fmt::Result {
        out.write_str(match self {
            Message::Completion => "completion",
            Message::Cancel => "cancel",
        })
    }
}

impl fmt::Display for End {
    fn fmt(&self, out: &mut fmt::Formatter<'_>) -> fmt::Result {
        out.write_str(match self {
            End::Retract => "retract",
            End::Close => "close",
        })
    }
}

impl fmt::Display for Situation {
    fn fmt(&self, out: &mut fmt::Formatter<'_>) -> fmt::Result {
        use Situation::*;
        match *self {
            FirstCancel(kind) => write!(out, "first cancel of an open request of kind {kind}"),
            SecondCancel => out.write_str("second cancel of the same request"),
            LaterCancel => out.write_str("third or later cancel of the same request"),
            CancelNotOpen => out.write_str("cancel of an id that is not open"),
            LateAccepted {
                completion,
                request,
            } => write_accepted(out, completion, request),
            LateRefused { completion, answer } => write_refused(out, completion, answer),
            AcceptedAfter { answer } => write_accepted_after(out, answer),
            CompletionBehindLate(kind) => write!(out, "completion of kind {kind} {BEHIND_LATE}"),
            CancelBehindLate => write!(out, "cancel {BEHIND_LATE}"),
            IdInUse(kind) => write!(out, "request of kind {kind} with {ID_IN_USE}"),
            NoAckIdInUse => write!(out, "NoAck transfer with {ID_IN_USE}"),
            OpenedAgain(kind) => write_opened_again(out, kind),
            AgainCompleted => out.write_str("completion of an id so opened again, not cancelled"),
            AgainCancelled => out.write_str("first cancel of an id so opened again"),
            FullSome => out.write_str("one more request to 16 open ones, some of them cancelled"),
            FullAll => out.write_str("one more request to 16 open ones, all of them cancelled"),
            FullIdInUse => write!(out, "request to 16 open ones with {ID_IN_USE}"),
            RoomAgain => out
                .write_str("request accepted where a late completion made room among 16 open ones"),
            EndSome(end) => write!(out, "{end} with some of the open requests cancelled"),
            EndAll(end) => write!(out, "{end} with all of the open requests cancelled"),
            Behind(end, message) => {
                write!(out, "{message} of a cancelled request behind the {end}")
            }
            ReadyAgain(message) => write_ready_again(out, message),
            OpenedAfterEnd => {
                out.write_str("id of a request cancelled before the close opened again")
            }
        }
    }
}

const BEHIND_LATE: &str = "behind the late completion of its id";
const ID_IN_USE: &str = "an id that is cancelled and not yet completed";

fn write_accepted(out: &mut fmt::Formatter<'_>, completion: u8, request: u8) -> fmt::Result {
    write!(
        out,
        "late completion of kind {completion} accepted for a request of kind {request}"
    )
}

fn write_refused(out: &mut fmt::Formatter<'_>, completion: u8, answer: u8) -> fmt::Result {
    write!(
        out,
        "late completion of kind {completion} refused with {answer}"
    )?;
    if answer == 11 {
        out.write_str(": its id with the top bit flipped, or as MessageId")?;
    }
    Ok(())
}

fn write_accepted_after(out: &mut fmt::Formatter<'_>, answer: u8) -> fmt::Result {
    write!(
        out,
        "late completion accepted after one refused with {answer}"
    )
}

fn write_opened_again(out: &mut fmt::Formatter<'_>, kind: u8) -> fmt::Result {
    write!(
        out,
        "id opened again after its late completion, by kind {kind}"
    )
}

fn write_ready_again(out: &mut fmt::Formatter<'_>, message: Message) -> fmt::Result {
    write!(
        out,
        "{message} of a request cancelled before the close, channel ready again"
    )
}

fn word(message: &[u8], at: usize) -> Option<u32> {
    let part = message.get(at..at.checked_add(4)?)?;
    part.try_into().ok().map(u32::from_le_bytes)
}

/// The kind that a message would have as a completion, by its function.
fn completion_kind(message: &[u8]) -> Option<u8> {
    match word(message, 8)? {
        0x100 => Some(15),
        0x101 => Some(16),
        0x102 => Some(17),
        _ => None,
    }
}

/// Where completions and cancels have their RequestId.
fn id_of_closing(message: &[u8]) -> Option<u32> {
    word(message, 12)
}

/// The RequestId of a request that passes checks 3 to 8.
fn id_of_request(kind: u8, message: &[u8]) -> Option<u32> {
    if kind < 10 {
        word(message, message.len().checked_sub(4)?)
    } else {
        word(message, 20).map(|word| word & !NO_ACK)
    }
}

/// An open request.
struct Request {
    kind: u8,
    cancels: u32,
    /// Its id is that of a request completed late.
    again: bool,
    /// Answers to its late completions.
    refused: BTreeSet<u8>,
}

#[derive(Default)]
struct Lane {
    open: BTreeMap<u32, Request>,
    /// Ids whose last request was completed late.
    late: BTreeSet<u32>,
    /// Ids of requests that were cancelled when a retract or close took them.
    ended: BTreeSet<u32>,
    /// Closed since, and no device announced again.
    closed: bool,
    /// A late completion has freed one of 16 rows.
    room: bool,
}

impl Lane {
    fn is_cancelled(&self, id: u32) -> bool {
        self.open
            .get(&id)
            .is_some_and(|request| request.cancels > 0)
    }

    fn cancelled(&self) -> usize {
        let requests = self.open.values();
        requests.filter(|request| request.cancels > 0).count()
    }

    fn see(&mut self, record: &Record, entry: &Entry) -> Vec<Situation> {
        let message = record.message;
        match (entry.answer, entry.kind) {
            (0, 6) => self.closed = false,
            (0, 8..=11) => return self.opened(entry),
            (0, 12) if self.is_cancelled(entry.request) => return vec![Situation::NoAckIdInUse],
            (0, 13) => return self.cancel(entry.request),
            (0, 14) => return self.end(End::Retract),
            (0, 15..=17) => return self.completed(entry),
            (0, 18) => return self.end(End::Close),
            (0, _) => {}
            (9, kind) => return self.in_use(kind, message),
            (10, _) => return self.full(),
            (6, 13) => return self.behind(End::Retract, Message::Cancel, message),
            (6, 15..=17) => return self.behind(End::Retract, Message::Completion, message),
            (5, _) if self.closed => return self.behind_close(record),
            (11, kind) => return self.not_open(kind, message),
            (2, _) => return self.refused(2, message),
            (5, _) if record.side == CLIENT => return self.refused(5, message),
            (answer, 15..=17) => return self.refused(answer, message),
            _ => {}
        }
        Vec::new()
    }

    fn opened(&mut self, entry: &Entry) -> Vec<Situation> {
        let mut found = Vec::new();
        let again = self.late.remove(&entry.request);
        if again {
            found.push(Situation::OpenedAgain(entry.kind));
        }
        if self.ended.remove(&entry.request) {
            found.push(Situation::OpenedAfterEnd);
        }
        if std::mem::take(&mut self.room) {
            found.push(Situation::RoomAgain);
        }
        let request = Request {
            kind: entry.kind,
            cancels: 0,
            again,
            refused: BTreeSet::new(),
        };
        self.open.insert(entry.request, request);
        found
    }

    fn cancel(&mut self, id: u32) -> Vec<Situation> {
        let Some(request) = self.open.get_mut(&id) else {
            let mut found = vec![Situation::CancelNotOpen];
            if self.late.contains(&id) {
                found.push(Situation::CancelBehindLate);
            }
            if self.ended.contains(&id) {
                found.push(Situation::ReadyAgain(Message::Cancel));
            }
            return found;
        };
        request.cancels += 1;
        match request.cancels {
            1 if request.again => vec![
                Situation::FirstCancel(request.kind),
                Situation::AgainCancelled,
            ],
            1 => vec![Situation::FirstCancel(request.kind)],
            2 => vec![Situation::SecondCancel],
            _ => vec![Situation::LaterCancel],
        }
    }

    fn completed(&mut self, entry: &Entry) -> Vec<Situation> {
        let full = self.open.len() == ROWS;
        let Some(request) = self.open.remove(&entry.request) else {
            return Vec::new();
        };
        self.room = full && request.cancels > 0;
        if request.cancels == 0 {
            return if request.again {
                vec![Situation::AgainCompleted]
            } else {
                Vec::new()
            };
        }
        self.late.insert(entry.request);
        let mut found = vec![Situation::LateAccepted {
            completion: entry.kind,
            request: request.kind,
        }];
        let answers = request.refused.into_iter();
        found.extend(answers.map(|answer| Situation::AcceptedAfter { answer }));
        found
    }

    fn end(&mut self, end: End) -> Vec<Situation> {
        let found = match self.cancelled() {
            0 => Vec::new(),
            all if all == self.open.len() => vec![Situation::EndAll(end)],
            _ => vec![Situation::EndSome(end)],
        };
        for (id, request) in std::mem::take(&mut self.open) {
            if request.cancels > 0 {
                self.ended.insert(id);
            }
        }
        self.late.clear();
        self.room = false;
        self.closed = self.closed || end == End::Close;
        found
    }

    fn in_use(&self, kind: u8, message: &[u8]) -> Vec<Situation> {
        let id = id_of_request(kind, message);
        if !id.is_some_and(|id| self.is_cancelled(id)) {
            return Vec::new();
        }
        let mut found = vec![Situation::IdInUse(kind)];
        if self.open.len() == ROWS {
            found.push(Situation::FullIdInUse);
        }
        found
    }

    fn full(&self) -> Vec<Situation> {
        match self.cancelled() {
            0 => Vec::new(),
            ROWS => vec![Situation::FullAll],
            _ => vec![Situation::FullSome],
        }
    }

    fn behind(&self, end: End, kind: Message, message: &[u8]) -> Vec<Situation> {
        let id = id_of_closing(message);
        if id.is_some_and(|id| self.ended.contains(&id)) {
            vec![Situation::Behind(end, kind)]
        } else {
            Vec::new()
        }
    }

    fn behind_close(&self, record: &Record) -> Vec<Situation> {
        let message = record.message;
        match (record.side, completion_kind(message), word(message, 8)) {
            (CLIENT, Some(_), _) => self.behind(End::Close, Message::Completion, message),
            (SERVER, _, Some(0x100)) => self.behind(End::Close, Message::Cancel, message),
            _ => Vec::new(),
        }
    }

    fn not_open(&mut self, kind: u8, message: &[u8]) -> Vec<Situation> {
        let mut found = Vec::new();
        let Some(id) = id_of_closing(message) else {
            return found;
        };
        if self.late.contains(&id) {
            found.push(Situation::CompletionBehindLate(kind));
        }
        if self.ended.contains(&id) {
            found.push(Situation::ReadyAgain(Message::Completion));
        }
        let meant = [Some(id ^ NO_ACK), word(message, 4)];
        if let Some(id) = meant
            .into_iter()
            .flatten()
            .find(|id| self.is_cancelled(*id))
        {
            found.push(self.refuse(id, kind, 11));
        }
        found
    }

    fn refused(&mut self, answer: u8, message: &[u8]) -> Vec<Situation> {
        match (completion_kind(message), id_of_closing(message)) {
            (Some(kind), Some(id)) if self.is_cancelled(id) => {
                vec![self.refuse(id, kind, answer)]
            }
            _ => Vec::new(),
        }
    }

    fn refuse(&mut self, id: u32, completion: u8, answer: u8) -> Situation {
        if let Some(request) = self.open.get_mut(&id) {
            request.refused.insert(answer);
        }
        Situation::LateRefused { completion, answer }
    }
}

#[derive(Default)]
pub struct Situations {
    lanes: [Lane; CHANNELS],
    counts: BTreeMap<Situation, u64>,
}

impl Situations {
    /// The records have to come in their order, from the first one on.
    pub fn see(&mut self, record: &Record, entry: &Entry) {
        if let Some(lane) = self.lanes.get_mut(usize::from(record.channel)) {
            for situation in lane.see(record, entry) {
                *self.counts.entry(situation).or_default() += 1;
            }
        }
    }

    pub fn count(&self, situation: Situation) -> u64 {
        self.counts.get(&situation).copied().unwrap_or(0)
    }
}
