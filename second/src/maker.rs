//! The maker of captures: which channel is next, what is tried on it, and the
//! record that comes of it. It runs the judge beside itself so that it knows
//! how far each channel has come.

use crate::capture::Record;
use crate::damage;
use crate::kinds::CLOSE;
use crate::rng::Rng;
use crate::table::{Channel, Row, Table, CHANNELS};

/// How a capture is mixed; the seed modulo the number of mixes picks one.
pub struct Mix {
    pub name: &'static str,
    pub channels: usize,
    /// Weights of a step that should go well, of blind damage to such a step,
    /// and of aiming at answer 2, 3, 5 and so on up to 14.
    proper: u32,
    blind: u32,
    /// Weight of a step around a cancelled request.
    late: u32,
    aims: [(u8, u32); 12],
    /// Percent of calls that stay on the channel of the call before.
    stay: usize,
    /// One in so many proper steps of a ready channel retracts or closes it.
    pub end: usize,
    /// Percent of drained channels that are then filled to the sixteenth row.
    pub fill: usize,
    /// Percent of devices that allow NoAck.
    pub no_ack: usize,
    /// One in so many calls carries thousands of bytes.
    bulk: usize,
}

const EVEN: [(u8, u32); 12] = [
    (2, 4),
    (3, 4),
    (5, 6),
    (6, 4),
    (7, 9),
    (8, 9),
    (9, 4),
    (10, 4),
    (11, 4),
    (12, 4),
    (13, 4),
    (14, 4),
];

pub const MIXES: [Mix; 8] = [
    Mix {
        name: "even",
        channels: 8,
        proper: 85,
        blind: 8,
        late: 26,
        aims: EVEN,
        stay: 50,
        end: 60,
        fill: 40,
        no_ack: 60,
        bulk: 600,
    },
    Mix {
        name: "deep",
        channels: 2,
        proper: 150,
        blind: 4,
        late: 40,
        aims: EVEN,
        stay: 70,
        end: 250,
        fill: 50,
        no_ack: 80,
        bulk: 600,
    },
    Mix {
        name: "blind",
        channels: 5,
        proper: 90,
        blind: 45,
        late: 28,
        aims: EVEN,
        stay: 60,
        end: 120,
        fill: 40,
        no_ack: 60,
        bulk: 700,
    },
    Mix {
        name: "rows",
        channels: 3,
        proper: 95,
        blind: 3,
        late: 30,
        aims: [
            (2, 4),
            (3, 4),
            (5, 5),
            (6, 4),
            (7, 5),
            (8, 5),
            (9, 12),
            (10, 12),
            (11, 6),
            (12, 6),
            (13, 6),
            (14, 6),
        ],
        stay: 75,
        end: 200,
        fill: 90,
        no_ack: 70,
        bulk: 700,
    },
    Mix {
        name: "setup",
        channels: 8,
        proper: 110,
        blind: 12,
        late: 34,
        aims: [
            (2, 5),
            (3, 5),
            (5, 9),
            (6, 8),
            (7, 12),
            (8, 12),
            (9, 5),
            (10, 5),
            (11, 6),
            (12, 6),
            (13, 6),
            (14, 6),
        ],
        stay: 40,
        end: 22,
        fill: 40,
        no_ack: 50,
        bulk: 700,
    },
    Mix {
        name: "sizes",
        channels: 4,
        proper: 95,
        blind: 8,
        late: 28,
        aims: [
            (2, 4),
            (3, 4),
            (5, 4),
            (6, 4),
            (7, 22),
            (8, 18),
            (9, 4),
            (10, 4),
            (11, 4),
            (12, 4),
            (13, 4),
            (14, 4),
        ],
        stay: 60,
        end: 80,
        fill: 40,
        no_ack: 60,
        bulk: 450,
    },
    Mix {
        name: "completions",
        channels: 6,
        proper: 100,
        blind: 5,
        late: 36,
        aims: [
            (2, 3),
            (3, 3),
            (5, 5),
            (6, 3),
            (7, 5),
            (8, 5),
            (9, 4),
            (10, 4),
            (11, 12),
            (12, 12),
            (13, 14),
            (14, 16),
        ],
        stay: 60,
        end: 90,
        fill: 60,
        no_ack: 60,
        bulk: 700,
    },
    Mix {
        name: "single",
        channels: 1,
        proper: 95,
        blind: 10,
        late: 26,
        aims: EVEN,
        stay: 100,
        end: 90,
        fill: 60,
        no_ack: 70,
        bulk: 600,
    },
];

pub struct Call {
    pub channel: u8,
    pub side: u8,
    pub message: Vec<u8>,
}

pub struct Maker {
    pub rng: Rng,
    pub table: Table,
    pub mix: &'static Mix,
    pub filling: [bool; CHANNELS],
    /// Channels that are to have all their rows marked once they are full.
    pub marking: [bool; CHANNELS],
    /// Rows of each channel that were marked when they were freed.
    pub gone: [Vec<Row>; CHANNELS],
    /// Request ids that were open once on each channel, or never needed a row.
    pub spent: [Vec<u32>; CHANNELS],
    /// Device and callback ids given earlier on any channel.
    pub ports: Vec<u32>,
    /// The last device and callback id of each channel, forgotten or not.
    pub last_device: [u32; CHANNELS],
    pub last_callback: [u32; CHANNELS],
    pub message_count: u32,
    at: usize,
    stamp: u64,
    out: Vec<u8>,
}

fn remember<T>(list: &mut Vec<T>, item: T) {
    if list.len() == 12 {
        list.remove(0);
    }
    list.push(item);
}

impl Maker {
    fn new(seed: u64) -> Maker {
        Maker {
            rng: Rng::new(seed),
            table: Table::open(1),
            mix: &MIXES[(seed % MIXES.len() as u64) as usize],
            filling: [false; CHANNELS],
            marking: [false; CHANNELS],
            gone: Default::default(),
            spent: Default::default(),
            ports: vec![4, 5],
            last_device: [4; CHANNELS],
            last_callback: [5; CHANNELS],
            message_count: 0,
            at: 0,
            stamp: 1,
            out: Vec::new(),
        }
    }

    pub fn channel(&self, c: usize) -> &Channel {
        &self.table.channels[c]
    }

    pub fn rows(&self, c: usize) -> Vec<Row> {
        self.channel(c).rows.iter().flatten().copied().collect()
    }

    fn next_call(&mut self) -> Call {
        if !self.rng.percent(self.mix.stay) {
            self.at = self.rng.below(self.mix.channels);
        }
        let c = self.at;
        if self.rng.one_in(self.mix.bulk) {
            return self.bulk(c);
        }
        // A channel passes each early phase once on its way, so it is held
        // there for some tries.
        let held = match self.channel(c).phase {
            4 => 70,
            0..=3 => 30,
            _ => 0,
        };
        if self.rng.percent(held) {
            let answer = self.rng.pick(&[5, 6, 7, 7, 7, 8, 8, 8, 8]);
            return self.aim(c, answer);
        }
        let mut weights = vec![self.mix.proper, self.mix.blind, self.mix.late];
        weights.extend(self.mix.aims.iter().map(|(_, weight)| *weight));
        match self.rng.weighted(&weights) {
            0 => self.proper(c),
            1 => self.blind(c),
            2 => self.late(c),
            aim => self.aim(c, self.mix.aims[aim - 3].0),
        }
    }

    fn blind(&mut self, c: usize) -> Call {
        let mut call = if self.rng.percent(70) {
            self.proper(c)
        } else {
            let answer = self.rng.pick(&[7, 8, 9, 11, 12, 13, 14]);
            self.aim(c, answer)
        };
        if call.side == CLOSE {
            return call;
        }
        for _ in 0..self.rng.pick(&[1, 1, 1, 2, 3]) {
            damage::any(&mut self.rng, &mut call.message);
        }
        call
    }

    /// No answer depends on the stamp, so it is rising, standing, falling and
    /// wild by turns.
    fn next_stamp(&mut self) -> u64 {
        let step = self.rng.below(1000) as u64;
        self.stamp = match self.rng.below(20) {
            0..=8 => self.stamp.wrapping_add(step),
            9..=11 => self.stamp,
            12..=15 => self.stamp.wrapping_sub(step),
            16 => 0,
            17 => u64::MAX,
            _ => self.rng.long(),
        };
        self.stamp
    }

    fn freed(&mut self, c: usize, row: Row) {
        remember(&mut self.spent[c], row.request);
        if row.marked {
            remember(&mut self.gone[c], row);
        }
    }

    fn emit(&mut self, call: Call) {
        let stamp = self.next_stamp();
        let c = usize::from(call.channel);
        let before = if c < CHANNELS {
            self.rows(c)
        } else {
            Vec::new()
        };
        let entry = if call.side == CLOSE {
            self.table.close(call.channel, stamp)
        } else {
            self.table
                .judge(call.channel, call.side, stamp, &call.message)
        };
        if let Some(entry) = entry.filter(|entry| entry.answer == 0) {
            match entry.kind {
                6 => {
                    self.ports.extend(self.table.channels[c].device);
                    self.last_device[c] = self.table.channels[c].device.unwrap_or(4);
                }
                7 => {
                    self.ports.extend(self.table.channels[c].callback);
                    if let Some(callback) = self.table.channels[c].callback {
                        self.last_callback[c] = callback;
                    }
                }
                12 | 13 => remember(&mut self.spent[c], entry.request),
                14..=18 => {
                    let now = self.table.channels[c];
                    for row in before {
                        if now.row_of(row.request).is_none() {
                            self.freed(c, row);
                        }
                    }
                }
                _ => {}
            }
            let surplus = self.ports.len().saturating_sub(16);
            self.ports.drain(..surplus);
        }
        let record = Record {
            channel: call.channel,
            side: call.side,
            stamp,
            message: &call.message,
        };
        record.write(&mut self.out);
    }

    /// A record that says more bytes than follow, for `end short`.
    fn emit_cut(&mut self) {
        let start = self.out.len();
        let call = self.proper(0);
        self.emit(call);
        let length = self.out.len() - start;
        let keep = self.rng.between(1, length - 1);
        self.out.truncate(start + keep);
    }
}

/// A capture of `calls` whole records; where the seed is 15 modulo 16 a cut
/// record follows them.
pub fn make(seed: u64, calls: u64) -> Vec<u8> {
    let mut maker = Maker::new(seed);
    for _ in 0..calls {
        let call = maker.next_call();
        maker.emit(call);
    }
    if seed % 16 == 15 {
        maker.emit_cut();
    }
    maker.out
}
