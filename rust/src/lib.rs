//! RTP packets that carry one telephone-event report (RFC 4733): a reader and a writer of packets,
//! a sender's plan for one event, a receiving table, and the list of events that the table holds.
//! Redundant packets (RFC 2198) carry several in blocks: a writer of them, a walker over their
//! blocks, and a receiver. Which event codes are in use is a set, read from the session description
//! or [`Codes::KEYS`].
//!
//! All of it is done by the static library, whose every function is proved to meet its contract.
//! This crate gives its calls Rust's names and types.
//!
//! One key press, its packets planned and received, is listed as one event:
//!
//! ```
//! use twimbor::{Codes, Event, Plan, Table};
//!
//! let (payload_type, ssrc, origin) = (101, 0x1122_3344, 5000);
//! let key = Plan {
//!     payload_type,
//!     ssrc,
//!     sequence: 1,
//!     start: 6000,
//!     code: 5,
//!     volume: 10,
//!     length: 800,
//!     period: 400,
//!     segment_size: 65_535,
//! };
//! let codes = Codes::KEYS;
//! let mut table = Table::open(codes, payload_type, ssrc, origin)?;
//! for packet in key.packets(codes)? {
//!     table.receive(&packet)?;
//! }
//! let [volume, quietest] = [10, 10]; // the loudest and the quietest report
//! let event = Event { code: 5, start: 1000, length: 800, volume, quietest, began: true, ended: true };
//! # #[cfg(feature = "alloc")]
//! assert_eq!(table.events()?, [event]);
//!
//! // A report's duration ends at 65,535 units, so a key that is held longer arrives in segments,
//! // each with a timestamp of its own. It is one event all the same.
//! let long = Plan { start: 10_000, length: 70_000, period: 30_000, ..key };
//! for packet in long.packets(codes)? {
//!     table.receive(&packet)?;
//! }
//! assert_eq!(table.segments().len(), 3);
//! # #[cfg(feature = "alloc")]
//! assert_eq!(table.events()?, [event, Event { start: 5000, length: 70_000, ..event }]);
//! # Ok::<(), twimbor::Refusal>(())
//! ```
//!
//! The crate is `no_std`. Its one feature, `alloc`, is on by default and gives `Table::events`;
//! [`Table::list_into`] does the same without it, into an array.
#![no_std]
#![deny(unsafe_code)]
#![warn(missing_docs)]

#[cfg(feature = "alloc")]
extern crate alloc;

mod blocks;
mod codes;
mod event;
mod plan;
mod refusal;
mod report;
#[allow(unsafe_code)]
pub mod sys;
mod table;

pub use blocks::{Block, Blocks};
pub use codes::{CODES_BYTES, Codes, CodesIter};
pub use event::Event;
pub use plan::{LONGEST_EVENT, Packets, Plan};
pub use refusal::{Refusal, UnknownRefusal};
pub use report::{OLDER_REPORTS, OlderReport, PACKET_BYTES, REDUNDANT_BYTES, Report};
pub use table::{Captured, Entry, Head, PLACES, Segment, Table, Taken};
