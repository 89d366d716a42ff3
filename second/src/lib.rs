//! A second, independent reading of document 01, of 02 R-1 and of 02 R-2, made to
//! be run beside the first one on the same captures and calls.
//!
//! The modules follow the headings of 01: `wire` reads numbers, `kinds` is the
//! table of "Header and kinds", `body` and `urb` are "Bodies after the 12
//! bytes", `table` holds channels, rows and the order of the answers, `journal`
//! and `capture` are "Journal" and "Listing". `maker` writes captures out of
//! `proper` (messages as 01 wants them), `aims` (messages wrong in one chosen
//! way), `late` (cancelled requests, 02 R-2) and `damage` (blind damage), all on
//! top of `compose`; `capabilities` is a capture of its own for 000 2.2.11.
//! `tally` counts what a capture reaches, `situations` what it has of 02 R-2 and
//! `classes` what it has of 000 2.2.11.
//!
//! `writer` is 02 R-1: from the fields that `body` and `urb` read to the bytes
//! of a message. `rebuild` makes the messages of a capture anew with it; `calls`
//! is a file of calls of it, `chosen` such calls picked by hand and `drawn` such
//! calls from a seed.

pub mod aims;
pub mod body;
pub mod calls;
pub mod capabilities;
pub mod capture;
pub mod chosen;
pub mod classes;
pub mod compose;
pub mod damage;
pub mod drawn;
pub mod journal;
pub mod kinds;
pub mod late;
pub mod maker;
pub mod proper;
pub mod rebuild;
pub mod rng;
pub mod situations;
pub mod table;
pub mod tally;
pub mod urb;
pub mod wire;
pub mod writer;
