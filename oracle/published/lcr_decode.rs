//! Root of the crate `lcr_decode` as the comparison builds it: the published files of
//! lcr-decode, unchanged but for the rule of gray, and a stand-in for the one that was never published.
//! `oracle/build` puts the published files beside a copy of this one; the functions of
//! `oracle/access/` follow the published text of `image.rs`, `transform.rs` and `detect.rs`.
#![allow(dead_code)]

extern crate alloc;

pub mod detect;
pub mod image;
pub mod math;
pub mod transform;

/// Stand-in: of the errors of lcr-decode the published files name only this one.
pub mod error {
    #[derive(Copy, Clone, PartialEq, Eq, Debug)]
    pub enum DecodeError {
        ShortBuffer,
    }
}
