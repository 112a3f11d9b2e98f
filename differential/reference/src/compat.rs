//! Names under which the published source finds the standard library.

pub use std::{cell, convert, error, fmt, hash, io, rc};
