//! Stands in for error.rs, which needs the crate thiserror and a module that is not in the text. Only the constructors that
//! fuji_compressed.rs uses are here.
pub type Result<T, E = Error> = std::result::Result<T, E>;

#[derive(Debug, Clone, PartialEq, Eq)]
pub enum Error {
    CorruptFile(String),
    InvalidArgument(String),
}

impl Error {
    pub fn corrupt(what: impl std::fmt::Display) -> Self {
        Error::CorruptFile(what.to_string())
    }
}
