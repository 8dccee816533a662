//! Stand-ins for the parts of the Rust crate that its six files use and that are not available.

/// The variants that the six files name.
#[derive(Debug, Clone, Copy, PartialEq, Eq)]
pub enum Error {
    InvalidValue(&'static str),
    MissingQuantMatrix,
    UnexpectedEof,
    Unsupported(&'static str),
    UnsupportedWaveletIndex(u64),
}

pub type Result<T> = std::result::Result<T, Error>;

pub mod sequence {
    /// The four bytes that open a data unit.
    pub const PARSE_INFO_PREFIX: [u8; 4] = [0x42, 0x42, 0x43, 0x44];
}

/// Level 0 claims no level, so there is nothing to violate.
pub mod conformance {
    use crate::params::SequenceHeader;
    use crate::transform::TransformParameters;

    pub struct Violation;

    pub fn check_sequence_header(_: &SequenceHeader) -> Vec<Violation> {
        Vec::new()
    }

    pub fn check_transform_parameters(
        _: &SequenceHeader,
        _: &TransformParameters,
    ) -> Vec<Violation> {
        Vec::new()
    }
}
