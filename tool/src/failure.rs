//! Why a command is not done.

/// Why a command is not done, in words for standard error.
#[derive(Clone, Debug, PartialEq, Eq)]
pub enum Failure {
    /// An error in a text, or a refusal.
    Refused(String),
    /// Misuse, or a file that cannot be read or written.
    Unusable(String),
}

impl Failure {
    /// The exit status.
    pub fn status(&self) -> u8 {
        match self {
            Self::Refused(_) => 1,
            Self::Unusable(_) => 2,
        }
    }

    /// The words.
    pub fn words(&self) -> &str {
        let (Self::Refused(words) | Self::Unusable(words)) = self;
        words
    }
}
