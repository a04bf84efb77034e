//! Stand-in for the crate's `types/mod.rs`: only the module that holds the text `final_data.rs`.
//!
//! Type inference, arrows and contexts are left out; `value.rs` uses none of them. No answer of the value layer
//! depends on what is missing here.

#[allow(dead_code)]
#[rustfmt::skip]
pub mod final_data;
pub(crate) mod precomputed;

pub use final_data::{CompleteBound, Final, TypeTooLargeError};
