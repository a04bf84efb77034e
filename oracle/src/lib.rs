//! The oracle: the text of simplicity-lang 0.9.0 and a plain model of the port's rules, side by side.
//!
//! Three files are the published crate's, byte for byte (`tools/check-oracle-text` compares them):
//! `value.rs`, `types/final_data.rs` and `dag.rs`. What they lean on and what is not in their text is
//! supplied by small stand-ins, and each says at its head what it stands for:
//!
//! * `bit_encoding.rs`: `BitIter`, `BitCollector`, `EarlyEndOfStreamError`
//! * `tmr.rs`: the Merkle root of a type, `Tmr`
//! * `types/mod.rs`, `types/precomputed.rs`: the module that holds `final_data.rs`, and its ready-made types
//! * `node.rs`: the program nodes that `dag.rs` names
//! * `sha256.rs`, `display_hex.rs`: what is used of the crates `hashes` and `hex`
//!
//! Beside them, and sharing no code with them:
//!
//! * `library`: a request for any call of the port, and its answer
//! * `model`: the port's rules, slow and plain: every call with its refusals
//! * `published`: the crate's text asked for the same answers, where it has one
//! * `agreement`: whether the text says what the rules say, or which listed difference explains it
//! * `supply`: types, tables and random numbers for whoever asks

// `value.rs` says `use hashes::sha256` and `use hex::DisplayHex`: both names lead back to this crate.
extern crate self as hashes;
extern crate self as hex;

pub mod agreement;
pub mod bit_encoding;
#[allow(dead_code)]
#[rustfmt::skip]
pub mod dag;
pub mod display_hex;
pub mod library;
pub mod model;
pub mod node;
pub mod published;
pub mod sha256;
pub mod supply;
pub mod tmr;
pub mod types;
#[allow(dead_code)]
#[rustfmt::skip]
pub mod value;

pub use bit_encoding::{BitCollector, BitIter, EarlyEndOfStreamError};
pub use display_hex::DisplayHex;
pub use tmr::Tmr;
pub use value::{Value, ValueRef, Word};
