//! An independent second program for document 01 ("What we will build and its
//! rules") and document 02's polling (Ask 1), erasing (Ask 2), CD-TEXT (Ask 4)
//! and recipes (Ask 7), written without sight of the program that it is compared
//! with.
//!
//! The rules live in `units`, `refusal`, `blocks`, `times`, `page`, `sheet`,
//! `commands`, `replies`, `job`, `follow`, `print`, `watch` and `cdtext`.
//! `layouts` answers requests over the byte layouts and `cdtext_requests` those
//! over CD-TEXT. `wellformed` (replies of a drive), `cdtext_forge` (packs that
//! need not be right) and `rng` serve its own tests and the other rooms.

#![forbid(unsafe_code)]

pub mod blocks;
pub mod cdtext;
pub mod commands;
pub mod follow;
pub mod hex;
pub mod job;
pub mod page;
pub mod print;
pub mod refusal;
pub mod replies;
pub mod sheet;
pub mod times;
pub mod units;
pub mod watch;

pub mod cdtext_requests;
pub mod layouts;

pub mod cdtext_forge;
pub mod rng;
pub mod wellformed;
