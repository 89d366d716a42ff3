//! The capture of `second capabilities`: that it reaches every class of 000
//! 2.2.11, and with the answers of the documents, which stand here by hand.

use second::capabilities::capture;
use second::capture::{listing, Capture};
use second::classes::{Class, Transfer};
use second::maker::{make, MIXES};
use second::rebuild::rebuild;
use second::tally::Tally;

/// 000 2.2.11 and 01's line of kind 6: the answer to a device of which one field
/// has this value and all else is right.
const VALUES: &str = "
8 CbSize 0
8 CbSize 1 to 26
8 CbSize 27
0 CbSize 28
8 CbSize 29
8 CbSize 30 to 4294967294
8 CbSize 4294967295
0 bus version 0
0 bus version 1
0 bus version 2
8 bus version 3
8 bus version 4 to 4294967294
8 bus version 4294967295
8 USBDI 0x0
8 USBDI 0x1 to 0x4fe
8 USBDI 0x4ff
0 USBDI 0x500
8 USBDI 0x501
8 USBDI 0x502 to 0x5fe
8 USBDI 0x5ff
0 USBDI 0x600
8 USBDI 0x601
8 USBDI 0x602 to 0xfffffffe
8 USBDI 0xffffffff
8 USB 0x0
8 USB 0x1 to 0xfe
8 USB 0xff
0 USB 0x100
8 USB 0x101
8 USB 0x102 to 0x10e
8 USB 0x10f
0 USB 0x110
8 USB 0x111
8 USB 0x112 to 0x1fe
8 USB 0x1ff
0 USB 0x200
8 USB 0x201
8 USB 0x202 to 0xfffffffe
8 USB 0xffffffff
0 host 0
8 host 1
8 host 2 to 4294967294
8 host 4294967295
0 speed 0
0 speed 1
8 speed 2
8 speed 3 to 4294967294
8 speed 4294967295
0 NoAck ms 0
8 NoAck ms 1
8 NoAck ms 2 to 8
8 NoAck ms 9
0 NoAck ms 10
0 NoAck ms 11
0 NoAck ms 12 to 255
0 NoAck ms 256
0 NoAck ms 257 to 510
0 NoAck ms 511
0 NoAck ms 512
8 NoAck ms 513
8 NoAck ms 514 to 4294967294
8 NoAck ms 4294967295";

/// The two fields that a rule joins, all else right.
const JOINED: &str = "
0 bus version 0 with speed 0
8 bus version 0 with speed 1
8 bus version 0 with speed barred
0 bus version 1 with speed 0
0 bus version 1 with speed 1
8 bus version 1 with speed barred
0 bus version 2 with speed 0
0 bus version 2 with speed 1
8 bus version 2 with speed barred
8 bus version barred with speed 0
8 bus version barred with speed 1
8 bus version barred with speed barred";

fn by_hand(lines: &str, class: Class) -> u8 {
    let name = class.to_string();
    let mut lines = lines.lines().filter_map(|line| line.split_once(' '));
    let (answer, _) = lines
        .find(|(_, of)| *of == name)
        .unwrap_or_else(|| panic!("no answer by hand: {name}"));
    answer.parse().expect("an answer")
}

fn wanted(class: Class) -> u8 {
    let value = |good: bool| if good { 0 } else { 8 };
    match class {
        Class::Value { .. } => by_hand(VALUES, class),
        Class::Joined { .. } => by_hand(JOINED, class),
        Class::OneByte { .. } | Class::TwoBarred(..) | Class::MoreBarred => 8,
        Class::Aligned { barred, .. } => value(barred.is_none()),
        Class::NoTexts { good } | Class::LongestTexts { good } => value(good),
        // The message is too short or too long, and 7 comes before 8.
        Class::CutInside(_) | Class::CutBefore(_) | Class::CutBarred => 7,
        Class::Behind { .. } | Class::SizeAgrees { .. } => 7,
        // A refused device changes only the next number.
        Class::FirstTry(_) | Class::LastTry(_) => 0,
        // NoAck is for isochronous transfers out to a device with milliseconds;
        // without it they bar nothing.
        Class::Then { low, transfer, .. } => match transfer {
            Transfer::NoAckOut => value(low != 0),
            Transfer::NoAckIn | Transfer::NotIsoch => 8,
            Transfer::PlainOut | Transfer::PlainIn => 0,
        },
    }
}

#[test]
fn the_capture_reaches_every_class_with_its_answer_and_no_other() {
    let tally = Tally::of(&capture());
    for class in Class::all() {
        for answer in [0, 7, 8] {
            let count = tally.classes.count(class, answer);
            let reached = answer == wanted(class);
            assert_eq!(count > 0, reached, "{count} times {answer}: {class}");
        }
    }
}

/// Each line by hand is the class of some value.
#[test]
fn no_line_by_hand_is_left_over() {
    let names: Vec<String> = Class::all().iter().map(Class::to_string).collect();
    for line in VALUES
        .lines()
        .chain(JOINED.lines())
        .filter(|line| !line.is_empty())
    {
        let (_, name) = line.split_once(' ').expect("an answer and a class");
        assert_eq!(names.iter().filter(|of| *of == name).count(), 1, "{name}");
    }
}

#[test]
fn made_captures_give_no_class_another_answer() {
    for seed in 0..MIXES.len() as u64 {
        let tally = Tally::of(&make(seed, 5_000));
        for class in Class::all() {
            for answer in [0, 7, 8]
                .into_iter()
                .filter(|answer| *answer != wanted(class))
            {
                let count = tally.classes.count(class, answer);
                assert_eq!(count, 0, "seed {seed} answer {answer}: {class}");
            }
        }
    }
}

#[test]
fn the_capture_is_small_and_on_all_channels() {
    let bytes = capture();
    let read = Capture::read(&bytes);
    assert!(!read.short);
    assert!((1_000..=2_000).contains(&read.records.len()));
    assert!(bytes.len() <= 150_000);
    let text = listing(&bytes, 1);
    for channel in 0..8 {
        for answer in [0, 8] {
            let part = format!(" {channel} 2 6 {answer} 0 0 0 ");
            let count = text.lines().filter(|line| line.contains(&part)).count();
            assert!(count >= 10, "channel {channel} answer {answer}: {count}");
        }
    }
    // Devices in other phases, by the server, and on channel 8.
    for part in [" 2 6 6 0 0 0 ", " 1 0 5 0 0 0 ", " 8 2 0 2 0 0 0 "] {
        assert!(text.contains(part), "{part}");
    }
}

/// No message of it has padding.
#[test]
fn a_rebuilt_capture_is_the_same() {
    assert_eq!(rebuild(&capture()), Ok(capture()));
}

type Words = [u32; 7];

/// The rule as 01 writes it.
fn rule(w: &Words) -> bool {
    w[0] == 28
        && [0, 1, 2].contains(&w[1])
        && [0x500, 0x600].contains(&w[2])
        && [0x100, 0x110, 0x200].contains(&w[3])
        && w[4] == 0
        && (w[5] == 0 || (w[5] == 1 && w[1] != 0))
        && (w[6] == 0 || (w[6] >= 10 && w[6] <= 512))
}

/// The structures of the devices that are accepted or refused with 8, and
/// whether they are accepted.
fn devices() -> Vec<(Words, bool)> {
    let bytes = capture();
    let read = Capture::read(&bytes);
    let text = listing(&bytes, 1);
    let mut out = Vec::new();
    for (record, line) in read.records.iter().zip(text.lines().skip(1)) {
        let fields: Vec<&str> = line.split(' ').collect();
        if fields[3] == "6" && ["0", "8"].contains(&fields[4]) {
            let part = &record.message[record.message.len() - 28..];
            let word = |at| u32::from_le_bytes(part[at..at + 4].try_into().expect("a word"));
            let words = std::array::from_fn(|field| word(4 * field));
            out.push((words, fields[4] == "0"));
        }
    }
    out
}

#[test]
fn every_device_of_the_capture_is_judged_by_the_rule() {
    for (words, accepted) in devices() {
        assert_eq!(rule(&words), accepted, "{words:x?}");
    }
}

fn set(words: &Words, field: usize, value: u32) -> Words {
    let mut out = *words;
    out[field] = value;
    out
}

fn shows(devices: &[(Words, bool)], wrong: impl Fn(&Words) -> bool) -> bool {
    devices
        .iter()
        .any(|(words, accepted)| wrong(words) != *accepted)
}

type Misreading = (&'static str, fn(u32) -> u32);

/// What stands for a field's four bytes.
const MISREADINGS: [Misreading; 10] = [
    ("one byte", |value| value & 0xFF),
    ("two bytes", |value| value & 0xFFFF),
    ("three bytes", |value| value & 0x00FF_FFFF),
    ("without the second byte", |value| value & 0xFFFF_00FF),
    ("without the third byte", |value| value & 0xFF00_FFFF),
    ("without the top bit", |value| value & 0x7FFF_FFFF),
    ("the upper half", |value| value >> 16),
    ("one less", |value| value.wrapping_sub(1)),
    ("one more", |value| value.wrapping_add(1)),
    ("big-endian", u32::swap_bytes),
];

#[test]
fn the_capture_shows_a_misread_field() {
    let devices = devices();
    for field in 0..7 {
        for (name, change) in MISREADINGS {
            // The only value of host, 0, reads alike from both ends.
            let told = (field, name) != (4, "big-endian");
            let found = shows(&devices, |w| rule(&set(w, field, change(w[field]))));
            assert_eq!(found, told, "field {field}: {name}");
        }
    }
}

type Looser = (&'static str, usize, fn(u32) -> bool, u32);

/// Rules by which a field could have further values, and a value that it may
/// have anyway.
const LOOSER: [Looser; 16] = [
    ("any size", 0, |_| true, 28),
    ("a size of at least 28", 0, |size| size >= 28, 28),
    ("a size of at most 28", 0, |size| size <= 28, 28),
    ("any bus version", 1, |_| true, 2),
    ("bus version 3", 1, |bus| bus == 3, 2),
    ("any USBDI version", 2, |_| true, 0x500),
    ("0x500 to 0x600", 2, |v| (0x500..=0x600).contains(&v), 0x500),
    ("any USB version", 3, |_| true, 0x100),
    ("0x100 to 0x200", 3, |v| (0x100..=0x200).contains(&v), 0x100),
    ("0x300", 3, |usb| usb == 0x300, 0x100),
    ("any host", 4, |_| true, 0),
    ("any speed", 5, |_| true, 0),
    ("1 to 9 ms", 6, |ms| ms < 10, 0),
    ("9 ms", 6, |ms| ms == 9, 0),
    ("513 ms", 6, |ms| ms == 513, 0),
    ("more than 512 ms", 6, |ms| ms > 512, 0),
];

type Stricter = (&'static str, fn(&Words) -> bool);

/// What could be asked for besides the rule.
const STRICTER: [Stricter; 21] = [
    ("no bus version 0", |w| w[1] != 0),
    ("no bus version 1", |w| w[1] != 1),
    ("no bus version 2", |w| w[1] != 2),
    ("no 0x500", |w| w[2] != 0x500),
    ("no 0x600", |w| w[2] != 0x600),
    ("no 0x100", |w| w[3] != 0x100),
    ("no 0x110", |w| w[3] != 0x110),
    ("no 0x200", |w| w[3] != 0x200),
    ("no high speed", |w| w[5] == 0),
    ("no full speed", |w| w[5] == 1),
    ("full speed is bus version 0", |w| {
        (w[1] == 0) == (w[5] == 0)
    }),
    ("bus version 1 is full speed", |w| w[1] != 1 || w[5] == 0),
    ("high speed is USB 2.0", |w| w[5] == 0 || w[3] == 0x200),
    ("full speed is USB 1.1", |w| w[5] == 1 || w[3] == 0x110),
    ("bus version 2 is USB 2.0", |w| w[1] != 2 || w[3] == 0x200),
    ("bus version 0 is not USB 2.0", |w| {
        w[1] != 0 || w[3] != 0x200
    }),
    ("milliseconds not 0", |w| w[6] != 0),
    ("milliseconds not 10", |w| w[6] != 10),
    ("milliseconds not 512", |w| w[6] != 512),
    ("milliseconds in a byte", |w| w[6] < 256),
    ("0, 10 or 512 ms", |w| [0, 10, 512].contains(&w[6])),
];

#[test]
fn the_capture_shows_every_wrong_rule() {
    let devices = devices();
    for (name, field, further, anyway) in LOOSER {
        let wrong = |w: &Words| rule(w) || further(w[field]) && rule(&set(w, field, anyway));
        assert!(shows(&devices, wrong), "{name}");
    }
    for (name, besides) in STRICTER {
        assert!(shows(&devices, |w| rule(w) && besides(w)), "{name}");
    }
    let not_joined = |w: &Words| rule(w) || w[5] == 1 && rule(&set(w, 5, 0));
    assert!(shows(&devices, not_joined));
}

#[test]
fn the_capture_shows_two_fields_exchanged() {
    let devices = devices();
    for one in 0..7 {
        for other in one + 1..7 {
            let exchanged = |w: &Words| rule(&set(&set(w, one, w[other]), other, w[one]));
            assert!(shows(&devices, exchanged), "fields {one} and {other}");
        }
    }
}
