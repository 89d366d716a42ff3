//! What a capture reaches of a device's capabilities (000 2.2.11), told from its
//! records and their entries.
//!
//! The allowed values are written here again and not asked of `body`, so that a
//! wrong rule there shows as a class with another answer than its own. "Barred"
//! is a value that is not allowed; "good" is a structure that 01 accepts. Values
//! are counted only in messages that are otherwise right.

use std::collections::BTreeMap;
use std::fmt;

use crate::body::Body;
use crate::capture::Record;
use crate::journal::Entry;
use crate::kinds::Kind;
use crate::proper::NO_ACK;
use crate::table::CHANNELS;
use crate::urb::ISOCH_TRANSFER;

pub const FIELDS: usize = 7;
pub const CB_SIZE: usize = 0;
pub const BUS: usize = 1;
pub const HOST: usize = 4;
pub const SPEED: usize = 5;
pub const NO_ACK_MS: usize = 6;

/// The structure's length.
pub const BYTES: usize = 4 * FIELDS;

pub type Words = [u32; FIELDS];

const NAMES: [&str; FIELDS] = [
    "CbSize",
    "bus version",
    "USBDI",
    "USB",
    "host",
    "speed",
    "NoAck ms",
];

/// The allowed values of each field, as runs with both their ends.
pub const ALLOWED: [&[(u32, u32)]; FIELDS] = [
    &[(28, 28)],
    &[(0, 2)],
    &[(0x500, 0x500), (0x600, 0x600)],
    &[(0x100, 0x100), (0x110, 0x110), (0x200, 0x200)],
    &[(0, 0)],
    &[(0, 1)],
    &[(0, 0), (10, 512)],
];

/// The first value of each class of a field; the class goes up to the next one.
/// The low byte of 256 and of 512 is 0, which is an allowed value too.
#[rustfmt::skip]
const STARTS: [&[u32]; FIELDS] = [
    &[0, 1, 27, 28, 29, 30, u32::MAX],
    &[0, 1, 2, 3, 4, u32::MAX],
    &[0, 1, 0x4FF, 0x500, 0x501, 0x502, 0x5FF, 0x600, 0x601, 0x602, u32::MAX],
    &[
        0, 1, 0xFF, 0x100, 0x101, 0x102, 0x10F, 0x110, 0x111, 0x112, 0x1FF, 0x200, 0x201, 0x202,
        u32::MAX,
    ],
    &[0, 1, 2, u32::MAX],
    &[0, 1, 2, 3, u32::MAX],
    &[0, 1, 2, 9, 10, 11, 12, 256, 257, 511, 512, 513, 514, u32::MAX],
];

/// Where the structure starts behind no texts, and behind four of 512 units.
const FIRST_START: usize = 36;
const LAST_START: usize = FIRST_START + 4 * 2 * 512;

pub fn allowed(field: usize, value: u32) -> bool {
    let mut runs = ALLOWED[field].iter();
    runs.any(|(low, high)| (*low..=*high).contains(&value))
}

fn joined_holds(words: &Words) -> bool {
    words[BUS] != 0 || words[SPEED] == 0
}

pub fn good(words: &Words) -> bool {
    barred(words).is_empty() && joined_holds(words)
}

fn barred(words: &Words) -> Vec<usize> {
    let fields = 0..FIELDS;
    fields
        .filter(|field| !allowed(*field, words[*field]))
        .collect()
}

/// The class of a value: its lowest and its highest.
fn run(field: usize, value: u32) -> (u32, u32) {
    let starts = STARTS[field];
    let next = starts.partition_point(|start| *start <= value);
    let high = starts.get(next).map_or(u32::MAX, |start| start - 1);
    (starts[next - 1], high)
}

/// Whether another value of this byte would be allowed.
fn allowed_but_for(field: usize, value: u32, byte: usize) -> bool {
    let shift = 8 * byte;
    let others = value & !(0xFF << shift);
    (0..=0xFF).any(|one| allowed(field, others | one << shift))
}

/// What the last field is for: 01 on NoAck.
#[derive(Clone, Copy, Debug, PartialEq, Eq, PartialOrd, Ord)]
pub enum Transfer {
    NoAckOut,
    NoAckIn,
    /// With NoAck, in either direction.
    NotIsoch,
    PlainOut,
    PlainIn,
}

/// Numbers in here are fields, but for `low`, `high`, `bus`, `speed` and `byte`.
#[derive(Clone, Copy, Debug, PartialEq, Eq, PartialOrd, Ord)]
pub enum Class {
    /// The value of a field while all others are good.
    Value {
        field: usize,
        low: u32,
        high: u32,
    },
    /// Such a value that would be allowed but for one of its higher bytes.
    OneByte {
        field: usize,
        byte: usize,
    },
    /// `None` is any barred value; the other five fields are good.
    Joined {
        bus: Option<u32>,
        speed: Option<u32>,
    },
    TwoBarred(usize, usize),
    MoreBarred,
    /// Where the structure starts; one barred field or none.
    Aligned {
        by_four: bool,
        barred: Option<usize>,
    },
    NoTexts {
        good: bool,
    },
    LongestTexts {
        good: bool,
    },
    CutInside(usize),
    CutBefore(usize),
    /// With a barred field in front of the cut.
    CutBarred,
    Behind {
        good: bool,
    },
    /// CbSize is not 28 and is the number of bytes that are there.
    SizeAgrees {
        more: bool,
    },
    /// Accepted after more than one refused device, of which the first or the
    /// last had this field barred alone.
    FirstTry(usize),
    LastTry(usize),
    /// A transfer to a device whose NoAck milliseconds are in the run.
    Then {
        low: u32,
        high: u32,
        transfer: Transfer,
    },
}

impl Class {
    fn value(field: usize, value: u32) -> Class {
        let (low, high) = run(field, value);
        Class::Value { field, low, high }
    }

    pub fn all() -> Vec<Class> {
        let mut out = Vec::new();
        for (field, starts) in STARTS.iter().enumerate() {
            out.extend(starts.iter().map(|start| Class::value(field, *start)));
            out.extend((1..4).map(|byte| Class::OneByte { field, byte }));
        }
        for bus in [Some(0), Some(1), Some(2), None] {
            out.extend([Some(0), Some(1), None].map(|speed| Class::Joined { bus, speed }));
        }
        for one in 0..FIELDS {
            out.extend((one + 1..FIELDS).map(|other| Class::TwoBarred(one, other)));
        }
        out.push(Class::MoreBarred);
        out.extend(placed());
        out.extend(
            (0..FIELDS).flat_map(|field| [Class::CutBefore(field), Class::CutInside(field)]),
        );
        out.push(Class::CutBarred);
        out.extend([true, false].map(|good| Class::Behind { good }));
        out.extend([false, true].map(|more| Class::SizeAgrees { more }));
        out.extend((0..FIELDS).map(Class::FirstTry));
        out.extend((0..FIELDS).map(Class::LastTry));
        out.extend(afterwards());
        out
    }
}

fn placed() -> Vec<Class> {
    let mut out = Vec::new();
    for by_four in [true, false] {
        out.push(Class::Aligned {
            by_four,
            barred: None,
        });
        out.extend((0..FIELDS).map(|field| Class::Aligned {
            by_four,
            barred: Some(field),
        }));
    }
    out.extend([true, false].map(|good| Class::NoTexts { good }));
    out.extend([true, false].map(|good| Class::LongestTexts { good }));
    out
}

fn afterwards() -> Vec<Class> {
    use Transfer::*;
    let mut out = Vec::new();
    let starts = STARTS[NO_ACK_MS].iter();
    for start in starts.filter(|start| allowed(NO_ACK_MS, **start)) {
        let (low, high) = run(NO_ACK_MS, *start);
        let transfers = [NoAckOut, NoAckIn, NotIsoch, PlainOut, PlainIn];
        out.extend(transfers.map(|transfer| Class::Then {
            low,
            high,
            transfer,
        }));
    }
    out
}

impl fmt::Display for Transfer {
    fn fmt(&self, out: &mut fmt::Formatter<'_>) -> fmt::Result {
        out.write_str(match self {
            Transfer::NoAckOut => "isochronous transfer out with NoAck",
            Transfer::NoAckIn => "isochronous transfer in with NoAck",
            Transfer::NotIsoch => "another transfer with NoAck",
            Transfer::PlainOut => "isochronous transfer out without NoAck",
            Transfer::PlainIn => "isochronous transfer in without NoAck",
        })
    }
}

fn write_run(out: &mut fmt::Formatter<'_>, field: usize, low: u32, high: u32) -> fmt::Result {
    let number = |value: u32| match NAMES[field] {
        "USBDI" | "USB" => format!("{value:#x}"),
        _ => value.to_string(),
    };
    write!(out, "{} {}", NAMES[field], number(low))?;
    if high > low {
        write!(out, " to {}", number(high))?;
    }
    Ok(())
}

fn how_good(good: bool) -> &'static str {
    if good {
        "all fields good"
    } else {
        "one or more barred"
    }
}

fn or_barred(value: Option<u32>) -> String {
    value.map_or("barred".to_string(), |value| value.to_string())
}

impl fmt::Display for Class {
    fn fmt(&self, out: &mut fmt::Formatter<'_>) -> fmt::Result {
        use Class::*;
        match *self {
            Value { field, low, high } => write_run(out, field, low, high),
            OneByte { field, byte } => {
                write!(out, "{} allowed but for its byte {byte}", NAMES[field])
            }
            Joined { bus, speed } => {
                let (bus, speed) = (or_barred(bus), or_barred(speed));
                write!(out, "bus version {bus} with speed {speed}")
            }
            TwoBarred(one, other) => write!(out, "{} and {} barred", NAMES[one], NAMES[other]),
            MoreBarred => out.write_str("three or more fields barred"),
            Aligned { by_four, barred } => write_aligned(out, by_four, barred),
            NoTexts { good } => write!(out, "behind no texts, {}", how_good(good)),
            LongestTexts { good } => write!(out, "behind the longest texts, {}", how_good(good)),
            CutInside(field) => write!(out, "cut inside {}", NAMES[field]),
            CutBefore(field) => write!(out, "cut before {}", NAMES[field]),
            CutBarred => out.write_str("cut behind a barred field"),
            Behind { good } => write!(out, "bytes behind, {}", how_good(good)),
            SizeAgrees { more: false } => out.write_str("fewer bytes than 28, as CbSize says"),
            SizeAgrees { more: true } => out.write_str("more bytes than 28, as CbSize says"),
            FirstTry(field) => write!(out, "after tries, the first with {} barred", NAMES[field]),
            LastTry(field) => write!(out, "after tries, the last with {} barred", NAMES[field]),
            Then {
                low,
                high,
                transfer,
            } => {
                write_run(out, NO_ACK_MS, low, high)?;
                write!(out, ", then {transfer}")
            }
        }
    }
}

fn write_aligned(
    out: &mut fmt::Formatter<'_>,
    by_four: bool,
    barred: Option<usize>,
) -> fmt::Result {
    let not = if by_four { "" } else { "not " };
    write!(out, "at a byte {not}divisible by 4, ")?;
    match barred {
        None => out.write_str(how_good(true)),
        Some(field) => write!(out, "{} barred", NAMES[field]),
    }
}

fn word(message: &[u8], at: usize) -> Option<u32> {
    let part = message.get(at..at.checked_add(4)?)?;
    part.try_into().ok().map(u32::from_le_bytes)
}

/// Where the structure starts: behind four counted texts, the first at byte 20.
fn start_of(message: &[u8]) -> Option<usize> {
    let mut at = 20;
    for _ in 0..4 {
        let count = word(message, at)? as usize;
        at = at.checked_add(4)?.checked_add(count.checked_mul(2)?)?;
    }
    (at <= message.len()).then_some(at)
}

/// Whether the message would be accepted with a good structure in it.
fn rest_is_right(message: &[u8], start: usize) -> bool {
    let mut other = message[..start].to_vec();
    for word in [28, 0, 0x500, 0x100, 0, 0, 0u32] {
        other.extend(word.to_le_bytes());
    }
    Body::read(Kind::AddDevice, &other).is_some_and(|body| body.values_hold(0))
}

fn values(words: &Words, start: usize) -> Vec<Class> {
    let by_four = start & 3 == 0;
    let joined = Class::Joined {
        bus: Some(words[BUS]).filter(|value| allowed(BUS, *value)),
        speed: Some(words[SPEED]).filter(|value| allowed(SPEED, *value)),
    };
    let barred = barred(words);
    let mut out = Vec::new();
    if barred.iter().all(|field| [BUS, SPEED].contains(field)) {
        out.push(joined);
    }
    match barred[..] {
        [] if !joined_holds(words) => {}
        [] => {
            out.extend((0..FIELDS).map(|field| Class::value(field, words[field])));
            let barred = None;
            out.push(Class::Aligned { by_four, barred });
        }
        [field] => {
            let value = words[field];
            out.push(Class::value(field, value));
            let bytes = (1..4).filter(|byte| allowed_but_for(field, value, *byte));
            out.extend(bytes.map(|byte| Class::OneByte { field, byte }));
            let barred = Some(field);
            out.push(Class::Aligned { by_four, barred });
        }
        [one, other] => out.push(Class::TwoBarred(one, other)),
        _ => out.push(Class::MoreBarred),
    }
    let good = good(words);
    match start {
        FIRST_START => out.push(Class::NoTexts { good }),
        LAST_START => out.push(Class::LongestTexts { good }),
        _ => {}
    }
    out
}

/// A structure of another length than 28 bytes.
fn lengths(part: &[u8]) -> Vec<Class> {
    let fields: Vec<u32> = (0..FIELDS).map_while(|at| word(part, 4 * at)).collect();
    let all_allowed = fields
        .iter()
        .enumerate()
        .all(|(field, value)| allowed(field, *value));
    let more = part.len() > BYTES;
    let mut out = Vec::new();
    out.push(match (part.len() / 4, part.len() % 4) {
        _ if more => Class::Behind { good: all_allowed },
        (field, 0) => Class::CutBefore(field),
        (field, _) => Class::CutInside(field),
    });
    if !more && !all_allowed {
        out.push(Class::CutBarred);
    }
    if fields
        .first()
        .is_some_and(|size| *size as usize == part.len())
    {
        out.push(Class::SizeAgrees { more });
    }
    out
}

/// A transfer that could be refused with 8 for NoAck alone.
fn transfer_of(message: &[u8], inward: bool) -> Option<Transfer> {
    let function = (word(message, 16)? >> 16) as u16;
    let no_ack = word(message, 20)? & NO_ACK != 0;
    if function != ISOCH_TRANSFER {
        return no_ack.then_some(Transfer::NotIsoch);
    }
    if word(message, 36)? > 1024 {
        return None;
    }
    Some(match (no_ack, inward) {
        (true, false) => Transfer::NoAckOut,
        (true, true) => Transfer::NoAckIn,
        (false, false) => Transfer::PlainOut,
        (false, true) => Transfer::PlainIn,
    })
}

#[derive(Clone, Default)]
struct Lane {
    /// For each device refused since the channel was opened or closed, the field
    /// that was barred, if it was one alone.
    tries: Vec<Option<usize>>,
    /// NoAck milliseconds of the accepted device.
    ms: u32,
}

impl Lane {
    fn see(&mut self, record: &Record, entry: &Entry) -> Vec<Class> {
        match (entry.kind, entry.answer) {
            (6, 0 | 7 | 8) => self.device(record.message, entry.answer == 0),
            (10..=12, 0 | 8) => {
                let (low, high) = run(NO_ACK_MS, self.ms);
                let transfer = transfer_of(record.message, entry.kind == 10);
                let class = |transfer| Class::Then {
                    low,
                    high,
                    transfer,
                };
                transfer.map(class).into_iter().collect()
            }
            (18, 0) => {
                *self = Lane::default();
                Vec::new()
            }
            _ => Vec::new(),
        }
    }

    fn device(&mut self, message: &[u8], accepted: bool) -> Vec<Class> {
        let Some(start) = start_of(message) else {
            return Vec::new();
        };
        let part = &message[start..];
        if part.len() != BYTES {
            self.tries.push(None);
            return lengths(part);
        }
        let words: Words = std::array::from_fn(|at| word(part, 4 * at).unwrap_or(0));
        let right = rest_is_right(message, start);
        let mut out = if right {
            values(&words, start)
        } else {
            Vec::new()
        };
        if accepted {
            self.ms = words[NO_ACK_MS];
            let tries = std::mem::take(&mut self.tries);
            if let [first, .., last] = tries[..] {
                out.extend(first.map(Class::FirstTry));
                out.extend(last.map(Class::LastTry));
            }
        } else {
            let alone = match barred(&words)[..] {
                [field] if right => Some(field),
                _ => None,
            };
            self.tries.push(alone);
        }
        out
    }
}

#[derive(Default)]
pub struct Classes {
    lanes: [Lane; CHANNELS],
    counts: BTreeMap<(Class, u8), u64>,
}

impl Classes {
    /// The records have to come in their order, from the first one on.
    pub fn see(&mut self, record: &Record, entry: &Entry) {
        if let Some(lane) = self.lanes.get_mut(usize::from(record.channel)) {
            for class in lane.see(record, entry) {
                *self.counts.entry((class, entry.answer)).or_default() += 1;
            }
        }
    }

    /// How often the class got the answer, which is 0, 7 or 8.
    pub fn count(&self, class: Class, answer: u8) -> u64 {
        self.counts.get(&(class, answer)).copied().unwrap_or(0)
    }
}

#[cfg(test)]
mod tests {
    use super::*;

    #[test]
    fn the_classes_of_a_field_hold_every_value_once() {
        for (field, starts) in STARTS.iter().enumerate() {
            assert_eq!(starts[0], 0);
            assert!(starts.windows(2).all(|pair| pair[0] < pair[1]));
            for start in *starts {
                let (low, high) = run(field, *start);
                assert_eq!(low, *start);
                assert_eq!(run(field, high), (low, high));
                // No class has both allowed and barred values.
                for (first, last) in ALLOWED[field] {
                    assert!(high < *first || low > *last || (low >= *first && high <= *last));
                }
            }
        }
    }

    #[test]
    fn one_byte_of_an_allowed_value() {
        assert!(allowed_but_for(2, 0x0700, 1));
        assert!(allowed_but_for(2, 0x8000_0600, 3));
        assert!(!allowed_but_for(2, 0x8001_0600, 3));
        assert!(!allowed_but_for(2, 0x0501, 1));
    }

    #[test]
    fn the_structure_stands_behind_the_texts() {
        let mut message = vec![0; 20];
        for text in [&[1, 0, 0, 0, 0, 0][..], &[0; 4], &[0; 4], &[0; 4]] {
            message.extend(text);
        }
        assert_eq!(start_of(&message), Some(38));
        message.pop();
        assert_eq!(start_of(&message), None);
    }
}
