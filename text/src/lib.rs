//! The readable forms: `jobs` gives a job in plain text, and `stops` stop names
//! and CD-TEXT packs.

#![forbid(unsafe_code)]

pub mod jobs;
pub mod stops;
