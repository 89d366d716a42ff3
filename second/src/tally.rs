//! Counting what a capture reaches.

use std::fmt::Write;

use crate::capture::Capture;
use crate::classes::{Class, Classes};
use crate::kinds::CLOSE;
use crate::rebuild;
use crate::situations::{Situation, Situations};
use crate::table::Table;

pub const KINDS: usize = 19;
pub const ANSWERS: usize = 15;

/// Every pair of a kind and an answer that a capture can show, by 01: answer 1
/// has no entry, answer 4 needs a message no record can hold, and 5, 8, 9, 13,
/// 15 and 17 have no field that is held to a value.
pub const POSSIBLE: [(u8, &[u8]); KINDS] = [
    (0, &[2, 3, 5]),
    (1, &[0, 6, 7, 8]),
    (2, &[0, 6, 7, 8]),
    (3, &[0, 6, 7, 8]),
    (4, &[0, 6, 7, 8]),
    (5, &[0, 6, 7]),
    (6, &[0, 6, 7, 8]),
    (7, &[0, 6, 7, 8]),
    (8, &[0, 6, 7, 9, 10]),
    (9, &[0, 6, 7, 9, 10]),
    (10, &[0, 6, 7, 8, 9, 10]),
    (11, &[0, 6, 7, 8, 9, 10]),
    (12, &[0]),
    (13, &[0, 6, 7]),
    (14, &[0, 6, 7, 8]),
    (15, &[0, 6, 7, 11, 12, 13, 14]),
    (16, &[0, 6, 7, 8, 11, 12, 13]),
    (17, &[0, 6, 7, 11, 12, 13]),
    (18, &[0]),
];

pub struct Tally {
    pub calls: u64,
    pub short: bool,
    pub pairs: [[u64; ANSWERS]; KINDS],
    /// Messages that pass checks 3 to 8 and have padding that is not zero:
    /// what rebuilding has to change.
    pub padded: u64,
    pub situations: Situations,
    pub classes: Classes,
    lengths: Vec<usize>,
    bytes: usize,
}

/// How many records are not what they were once the capture is rebuilt.
fn changed(capture: &Capture, bytes: &[u8]) -> u64 {
    let again = rebuild::rebuild(bytes).unwrap_or_default();
    let again = Capture::read(&again);
    let pairs = capture.records.iter().zip(&again.records);
    pairs
        .filter(|(old, new)| old.message != new.message)
        .count() as u64
}

impl Tally {
    pub fn of(bytes: &[u8]) -> Tally {
        let capture = Capture::read(bytes);
        let mut table = Table::open(1);
        let mut tally = Tally {
            calls: 0,
            short: capture.short,
            pairs: [[0; ANSWERS]; KINDS],
            padded: changed(&capture, bytes),
            situations: Situations::default(),
            classes: Classes::default(),
            lengths: Vec::new(),
            bytes: bytes.len(),
        };
        for record in &capture.records {
            let entry = if record.side == CLOSE {
                table.close(record.channel, record.stamp)
            } else {
                table.judge(record.channel, record.side, record.stamp, record.message)
            };
            tally.lengths.push(record.message.len());
            if let Some(entry) = entry {
                tally.calls += 1;
                tally.pairs[usize::from(entry.kind)][usize::from(entry.answer)] += 1;
                tally.situations.see(record, &entry);
                tally.classes.see(record, &entry);
            }
        }
        tally.lengths.sort_unstable();
        tally
    }

    pub fn answer(&self, answer: usize) -> u64 {
        self.pairs.iter().map(|row| row[answer]).sum()
    }

    pub fn kind(&self, kind: usize) -> u64 {
        self.pairs[kind].iter().sum()
    }

    pub fn unseen(&self) -> Vec<(u8, u8)> {
        let mut out = Vec::new();
        for (kind, answers) in POSSIBLE {
            for answer in answers {
                if self.pairs[usize::from(kind)][usize::from(*answer)] == 0 {
                    out.push((kind, *answer));
                }
            }
        }
        out
    }

    fn share(&self, count: u64) -> f64 {
        100.0 * count as f64 / (self.calls.max(1)) as f64
    }

    fn print_sizes(&self, out: &mut String) {
        let middle = self
            .lengths
            .get(self.lengths.len() / 2)
            .copied()
            .unwrap_or(0);
        let largest = self.lengths.last().copied().unwrap_or(0);
        let _ = writeln!(out, "calls {}", self.calls);
        let _ = writeln!(out, "bytes {}", self.bytes);
        let _ = writeln!(out, "message length: median {middle}, largest {largest}");
        let _ = writeln!(out, "ends short: {}", if self.short { "yes" } else { "no" });
        let _ = writeln!(out, "messages with padding to clear: {}", self.padded);
    }

    fn print_shares(&self, out: &mut String) {
        let _ = writeln!(out, "\nanswer   count   share");
        for answer in (0..ANSWERS).filter(|answer| *answer != 1) {
            let count = self.answer(answer);
            let _ = writeln!(out, "{answer:>6} {count:>7} {:>6.2}%", self.share(count));
        }
        let _ = writeln!(out, "\n  kind   count   share  accepted");
        for kind in 0..KINDS {
            let count = self.kind(kind);
            let accepted = self.pairs[kind][0];
            let _ = writeln!(
                out,
                "{kind:>6} {count:>7} {:>6.2}% {accepted:>9}",
                self.share(count)
            );
        }
    }

    fn print_pairs(&self, out: &mut String) {
        let _ = writeln!(out, "\npairs seen: kind, then answer:count");
        for (kind, row) in self.pairs.iter().enumerate() {
            let seen: Vec<String> = row
                .iter()
                .enumerate()
                .filter(|(_, count)| **count > 0)
                .map(|(answer, count)| format!("{answer}:{count}"))
                .collect();
            let _ = writeln!(out, "{kind:>6}  {}", seen.join(" "));
        }
        let unseen: Vec<String> = self
            .unseen()
            .iter()
            .map(|(kind, answer)| format!("({kind}, {answer})"))
            .collect();
        let unseen = if unseen.is_empty() {
            "none".to_string()
        } else {
            unseen.join(" ")
        };
        let _ = writeln!(out, "\npossible pairs not seen: {unseen}");
    }

    fn print_reached(&self, out: &mut String) {
        let _ = writeln!(out, "\ncancelled requests (02 R-2): count, then situation");
        for situation in Situation::all() {
            let count = self.situations.count(situation);
            let _ = writeln!(out, "{count:>6}  {situation}");
        }
        let _ = writeln!(
            out,
            "\ncapabilities (000 2.2.11): accepted, refused with 7, with 8, then class"
        );
        for class in Class::all() {
            let [accepted, sizes, values] =
                [0, 7, 8].map(|answer| self.classes.count(class, answer));
            let _ = writeln!(out, "{accepted:>6} {sizes:>6} {values:>6}  {class}");
        }
    }

    pub fn print(&self) -> String {
        let mut out = String::new();
        self.print_sizes(&mut out);
        self.print_shares(&mut out);
        self.print_pairs(&mut out);
        self.print_reached(&mut out);
        out
    }
}
