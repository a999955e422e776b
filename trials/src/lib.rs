//! Jobs and requests for the proved programs and the second one. `drive`,
//! `random` and `polling_random` make random jobs, `corners`, `polling_corners`,
//! `erasing_corners`, `charge_corners`, `audio_corners` and `recipe_corners` the
//! fixed ones; `requests` makes requests over the byte layouts, which `packed`
//! gives in a binary form, and `cdtext_random` and `cdtext_corners` those over
//! CD-TEXT. `conversion` looks at the source and the machine code of the conversion
//! of times.

#![forbid(unsafe_code)]

#[rustfmt::skip] // a table with one job a line
pub mod audio_corners;
pub mod cdtext_corners;
pub mod cdtext_random;
#[rustfmt::skip] // likewise
pub mod charge_corners;
pub mod conversion;
#[rustfmt::skip] // likewise
pub mod corners;
pub mod drive;
#[rustfmt::skip] // likewise
pub mod erasing_corners;
pub mod packed;
#[rustfmt::skip] // likewise
pub mod polling_corners;
pub mod polling_random;
pub mod random;
#[rustfmt::skip] // likewise
pub mod recipe_corners;
pub mod requests;
