//! The derive alone.

pub use derives::Error;
