//! Verifying keys.

use std::fmt;

use crate::error::Error;
use crate::ffi;
use crate::mode::Mode;
use crate::pieces::MessageVerifier;
use crate::set::{array_of, ParameterSet};
use crate::signature_bytes::Signature;

/// A public key: the public seed and the root, each of n bytes.
#[derive(Clone, PartialEq, Eq, Hash)]
pub struct VerifyingKey<P: ParameterSet> {
    bytes: P::VerifyingKeyBytes,
}

impl<P: ParameterSet> VerifyingKey<P> {
    pub(crate) fn of(bytes: P::VerifyingKeyBytes) -> Self {
        VerifyingKey { bytes }
    }

    /// The public seed and the root.
    #[must_use]
    pub fn to_bytes(&self) -> P::VerifyingKeyBytes {
        self.bytes.clone()
    }

    /// A copy of the key's bytes.
    #[must_use]
    pub fn to_vec(&self) -> Vec<u8> {
        self.bytes.as_ref().to_vec()
    }

    /// Verifies a signature of a message with a context (algorithm 24).
    ///
    /// # Errors
    /// [`Error::ContextTooLong`], [`Error::MessageTooLong`], [`Error::Invalid`]
    pub fn try_verify_with_context(
        &self,
        msg: &[u8],
        ctx: &[u8],
        signature: &Signature<P>,
    ) -> Result<(), Error> {
        self.verify_in_mode(Mode::Pure, msg, ctx, signature)
    }

    /// Verifies a signature in a mode (algorithms 24 and 25).
    ///
    /// # Errors
    /// [`Error::ContextTooLong`], [`Error::MessageTooLong`], [`Error::Invalid`]
    pub fn verify_in_mode(
        &self,
        mode: Mode,
        msg: &[u8],
        ctx: &[u8],
        signature: &Signature<P>,
    ) -> Result<(), Error> {
        let job = ffi::Job::of::<P>(mode, self.bytes.as_ref(), msg, ctx);
        Error::of(ffi::verify(&job, signature.as_ref()))
    }

    /// Begins to verify a signature of a message that comes in pieces, in a mode.
    ///
    /// # Errors
    /// [`Error::ContextTooLong`]
    pub fn verify_pieces<'s>(
        &self,
        mode: Mode,
        ctx: &[u8],
        signature: &'s Signature<P>,
    ) -> Result<MessageVerifier<'s, P>, Error> {
        let job = ffi::Job::of::<P>(mode, self.bytes.as_ref(), &[], ctx);
        MessageVerifier::new(&job, signature)
    }

    /// Verifies by the digest of a message that was hashed elsewhere (algorithm 25).
    ///
    /// # Errors
    /// [`Error::Length`] where the digest isn't one of the mode, and in the mode [`Mode::Pure`],
    /// which has none; [`Error::ContextTooLong`], [`Error::Invalid`]
    pub fn verify_digest(
        &self,
        mode: Mode,
        digest: &[u8],
        ctx: &[u8],
        signature: &Signature<P>,
    ) -> Result<(), Error> {
        let job = ffi::Job::of::<P>(mode, self.bytes.as_ref(), digest, ctx);
        Error::of(ffi::verify_digest(&job, signature.as_ref()))
    }
}

impl<P: ParameterSet> AsRef<[u8]> for VerifyingKey<P> {
    fn as_ref(&self) -> &[u8] {
        self.bytes.as_ref()
    }
}

impl<P: ParameterSet> TryFrom<&[u8]> for VerifyingKey<P> {
    type Error = Error;

    /// [`Error::Length`] where the bytes are more or less than 2n.
    fn try_from(bytes: &[u8]) -> Result<Self, Error> {
        Ok(VerifyingKey::of(array_of(bytes)?))
    }
}

impl<P: ParameterSet> fmt::Debug for VerifyingKey<P> {
    fn fmt(&self, formatter: &mut fmt::Formatter<'_>) -> fmt::Result {
        write!(formatter, "<VerifyingKey {} ", P::NAME)?;
        for byte in self.bytes.as_ref() {
            write!(formatter, "{byte:02x}")?;
        }
        formatter.write_str(">")
    }
}
