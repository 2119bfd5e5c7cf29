//! An independent reader of shards, a join of two, a plan of a file's stretch,
//! an audit of segments, a reader and a writer of the old blob files, and a
//! seeded maker of good and damaged shards and blob files.
//!
//! Written from the paper `01-scope.md` and the requests T-01, T-09, T-13 and
//! T-14 of `02-change-requests.md` alone. It shares no code with the product it
//! checks.

#![forbid(unsafe_code)]
#![warn(missing_docs)]

pub mod audit;
pub mod blobfiles;
pub mod blobs;
pub mod casebook;
pub mod cases;
pub mod damage;
pub mod draw;
pub mod examples;
pub mod generate;
pub mod join;
pub mod known;
pub mod naming;
pub mod plan;
pub mod puts;
pub mod reader;
pub mod segments;
pub mod stretch;
pub mod vectors;
