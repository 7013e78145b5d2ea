//! A plain Rust engine to time the product against, and sheets to time.

pub mod families;
pub mod plain;
pub mod plants;
pub mod sheets;
pub mod timing;
