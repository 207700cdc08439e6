//! Stands in for voxr's `error`: nothing that the files taken call fails.

pub type Result<T> = std::result::Result<T, std::convert::Infallible>;
