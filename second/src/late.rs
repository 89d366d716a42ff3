//! Cancelled requests and what comes late for them (02 R-2): cancels and
//! completions of marked rows, and those that come when the row is no more.

use crate::compose::{first_word, get32, set32, words};
use crate::kinds::SERVER;
use crate::maker::{Call, Maker};
use crate::proper::NO_ACK;
use crate::table::{Row, Sort};

impl Maker {
    pub fn rows_with_mark(&self, c: usize, is: bool) -> Vec<Row> {
        let mut rows = self.rows(c);
        rows.retain(|row| row.marked == is);
        rows
    }

    /// Rows that were marked until a completion, a retract or a close freed
    /// them, and whose ids are not open now.
    fn not_open_now(&self, c: usize) -> Vec<Row> {
        let mut rows = self.gone[c].clone();
        rows.retain(|row| self.channel(c).row_of(row.request).is_none());
        rows
    }

    pub fn cancel_of(&mut self, c: usize, request: u32) -> Call {
        let first = self.device_word(c);
        let id = self.message_id(c);
        self.call(c, SERVER, words(first, id, 0x100, &[request]))
    }

    /// A completion or cancel whose row is no more.
    pub fn too_late(&mut self, c: usize) -> Option<Call> {
        let freed = self.not_open_now(c);
        if freed.is_empty() {
            return None;
        }
        let row = self.rng.pick(&freed);
        Some(match self.rng.below(10) {
            0..=2 => self.cancel_of(c, row.request),
            3..=5 => {
                let kind = self.rng.between(15, 17) as u8;
                self.some_completion(c, kind, row.request)
            }
            _ => self.complete(c, row),
        })
    }

    /// A step around a cancelled request, of which the channel may first need
    /// one.
    pub fn late(&mut self, c: usize) -> Call {
        if self.channel(c).phase != 5 {
            return self.too_late(c).unwrap_or_else(|| self.proper(c));
        }
        let marked = self.rows_with_mark(c, true);
        let unmarked = self.rows_with_mark(c, false);
        let step = self.rng.below(20);
        if marked.is_empty() || step < 3 {
            if unmarked.is_empty() {
                return self.proper(c);
            }
            let row = self.rng.pick(&unmarked);
            return self.cancel_of(c, row.request);
        }
        // Ends are rare in some mixes, and rarer still with marked rows.
        if self.rng.one_in(if unmarked.is_empty() { 15 } else { 50 }) {
            return self.end(c, 50);
        }
        let row = self.rng.pick(&marked);
        match step {
            3..=5 => self.cancel_of(c, row.request),
            6 => {
                let request = self.fresh(c, false);
                self.cancel_of(c, request)
            }
            7 | 8 => self.too_late(c).unwrap_or_else(|| self.complete(c, row)),
            9 | 10 => self.request_under(c, row.request),
            11 => self.open_freed(c).unwrap_or_else(|| self.complete(c, row)),
            12..=16 => self.refused_late(c, row),
            _ => self.complete(c, row),
        }
    }

    /// An id whose marked row was freed, opened again, if there is one.
    fn open_freed(&mut self, c: usize) -> Option<Call> {
        let freed = self.not_open_now(c);
        if freed.is_empty() {
            return None;
        }
        let request = self.rng.pick(&freed).request;
        Some(self.request_under(c, request))
    }

    /// A completion that is refused and leaves the marked row as it is, or what
    /// lets the next ones be refused (`unheard`); while no callback is given every
    /// completion of the client gets 5.
    fn refused_late(&mut self, c: usize, row: Row) -> Call {
        if self.channel(c).callback.is_none() {
            return self.complete(c, row);
        }
        match self.rng.below(12) {
            0 | 1 => {
                let mut call = self.complete(c, row);
                call.side = self.rng.pick(&[0, 4, 130, 255]);
                call
            }
            2 => self.unheard(c, row),
            3 => {
                let kind = self.rng.between(15, 17) as u8;
                self.crooked_completion(c, kind, row.request)
            }
            4 => self.data_completion_call(c, row.request, &[]),
            5 => self.misnamed(c, row),
            6 | 7 => self.wrong_sort_of(c, row),
            8 if row.sort == Sort::Io => self.disagreeing_of(c, row),
            _ if row.limit <= 600 || row.sort == Sort::In => self.too_much_of(c, row),
            _ => self.wrong_sort_of(c, row),
        }
    }

    /// A completion not by the callback's interface; or no completion but a
    /// register callback that takes the callback back, so that those after it get
    /// 5.
    fn unheard(&mut self, c: usize, row: Row) -> Call {
        if self.rng.percent(30) {
            return self.register(c, 0);
        }
        let mut call = self.complete(c, row);
        let first = get32(&call.message, 0);
        let bit = 1 << self.rng.between(3, 29);
        set32(&mut call.message, 0, first_word(first ^ bit, 1));
        call
    }

    /// The top bit of the id flipped, or the id as MessageId alone.
    fn misnamed(&mut self, c: usize, row: Row) -> Call {
        let mut call = self.complete(c, row);
        let other = if self.rng.percent(50) {
            row.request ^ NO_ACK
        } else {
            self.fresh(c, false)
        };
        set32(&mut call.message, 4, row.request);
        set32(&mut call.message, 12, other);
        call
    }
}
