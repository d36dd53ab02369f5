//! What the recorders, the comparison, the benchmark and the sample maker share: random numbers, pictures, streams made of them, and digests.
pub mod encoder;
pub mod pictures;
pub mod random;
pub mod sha256;
pub mod stream;
