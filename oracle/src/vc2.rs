//! Root of the crate that holds the Rust sources and the stubs for what they lack.

pub mod bitio;
pub mod encoder;
pub mod params;
pub mod quant;
mod stubs;
pub mod transform;
pub mod wavelet;

pub use stubs::{Error, Result, conformance, sequence};
