//! Whether a message is signed as it is.

/// Whether the message is signed as it is, or its digest (FIPS 205, section 10.2).
///
/// The calls get the message and make the digest, but those whose names end in `_digest`. A digest
/// should have at least 2n bytes (section 10.2.2): SHA-256 goes with the sets of 128 bits alone.
#[derive(Clone, Copy, Debug, Default, PartialEq, Eq, Hash)]
pub enum Mode {
    /// The message itself.
    #[default]
    Pure,
    /// Its SHA-256.
    Sha256,
    /// Its SHA-512.
    Sha512,
}

impl Mode {
    /// The number that `slh_dsa.h` has.
    pub(crate) fn number(self) -> u32 {
        match self {
            Mode::Pure => 0,
            Mode::Sha256 => 1,
            Mode::Sha512 => 2,
        }
    }
}
