//! What the benchmark compares: the plain Rust version, and the peers in C.

#[cfg(any(feature = "libre", feature = "speexdsp"))]
pub mod peers;
pub mod plain;
