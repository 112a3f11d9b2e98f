//! What a story image holds, and where the first broken rule of a refused one stands.
//!
//! The number of a refusal and all that an accepted image holds come from the proved library (`library`). The place of a
//! fault comes from `rules`, a plain second writing of the format's rules; it is tested against the proved load by
//! `differential/run explain`.

pub mod library;
pub mod rules;
