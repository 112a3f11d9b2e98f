pub use std::{borrow::ToOwned, boxed::Box, format, string::String, string::ToString, vec, vec::Vec};
