//! The proved library as a Rust program sees it, and what the differential tests share.

pub mod answers;
pub mod ffi;
pub mod on_places;
