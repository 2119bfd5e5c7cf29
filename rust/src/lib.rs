//! Reads, writes, joins and audits shards, plans what to fetch of their files, and reads and writes the old blob files, through a
//! library that is proved to follow its written rules.
//!
//! - [`Reader`] reads a shard in pieces, [`Writer`] writes one record by record.
//! - [`judge`] answers for a whole shard in a buffer, [`find_chunk`] and [`find_file`] look for a hash in it.
//! - [`join_into`] joins two shards into a lent buffer, [`join`] a list of them.
//! - [`plan`] tells which pieces to fetch for a stretch of one file, [`plan_into`] fills a lent table with them.
//! - [`audit`] holds the segments of a shard against the xorbs that it lists.
//! - [`blobs`] has the old blob files: their entries read, written and counted.
//!
//! The proved part is the archive `libmelagbosun.a`, for x86-64 only; `./archive` at the top of the repository makes it.
//! This crate adds types around it and no rules. Only [`join`] and [`plan`] allocate.
//!
//! ```
//! use melagbosun::{Reader, Record};
//!
//! let tag: Vec<u8> = (1..=32).collect();
//! let mut shard = tag.clone();
//! shard.extend(2_u64.to_le_bytes());
//! shard.extend(0_u64.to_le_bytes());
//! for _ in 0..2 {
//!     shard.extend([0xFF; 32]);
//!     shard.extend([0; 16]);
//! }
//!
//! let mut reader = Reader::new(&tag);
//! for piece in shard.chunks(7) {
//!     reader.read(piece, |record| println!("{record:?}"))?;
//! }
//! assert_eq!(reader.verdict()?.length, 144);
//! # Ok::<(), melagbosun::Refusal>(())
//! ```

#![deny(missing_docs)]
#![deny(unsafe_code)]

mod audit;
pub mod blobs;
mod error;
mod ffi;
mod find;
mod join;
mod plan;
mod reader;
mod record;
#[cfg(test)]
mod states;
mod writer;

pub use audit::{audit, Audited};
pub use error::{Refusal, Summary, Totals, Verdict};
pub use find::{find_chunk, find_file, judge, FoundChunk, FoundFile};
pub use join::{join, join_into};
pub use plan::{plan, plan_into, FetchRow};
pub use reader::{Reader, Said, Step};
pub use record::{BlockNumber, ChunkIndex, FileNumber, Hash, Position, Record};
pub use writer::{Offer, Writer};

/// The length that a tag must have.
pub const TAG_SIZE: usize = 32;

/// The size of every record but the footer.
pub const ENTRY_SIZE: usize = 48;

/// The size of the footer.
pub const FOOTER_SIZE: usize = 200;

/// No shard is longer: one that would be is refused with 6.
const LIMIT: usize = 16_777_216;
