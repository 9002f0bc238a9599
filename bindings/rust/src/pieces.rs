//! Messages in pieces: what verifies and what signs is a writer.

use std::fmt;
use std::io::{self, Write};

use crate::error::Error;
use crate::ffi::{self, RawSigner, RawVerifier};
use crate::set::ParameterSet;
use crate::signature_bytes::Signature;
use crate::signing_key::SigningKey;

/// The verification of a message that is written piece by piece, by
/// [`VerifyingKey::verify_pieces`](crate::VerifyingKey::verify_pieces).
///
/// ```
/// # use slh_dsa_verified::{Error, Mode, Sha2_128f, SigningKey};
/// # let key = SigningKey::<Sha2_128f>::generate()?;
/// # let signature = key.try_sign_with_context(b"Version 1.2 is out.", b"", None)?;
/// let mut message: &[u8] = b"Version 1.2 is out."; // a file, say
/// let mut verifier = key.verifying_key().verify_pieces(Mode::Pure, b"", &signature)?;
/// std::io::copy(&mut message, &mut verifier)?;
/// verifier.finish()?;
/// # Ok::<(), Box<dyn std::error::Error>>(())
/// ```
#[must_use = "nothing is verified before `finish`"]
#[derive(Clone)]
pub struct MessageVerifier<'s, P: ParameterSet> {
    state: Box<RawVerifier>,
    signature: &'s Signature<P>,
}

impl<'s, P: ParameterSet> MessageVerifier<'s, P> {
    pub(crate) fn new(job: &ffi::Job<'_>, signature: &'s Signature<P>) -> Result<Self, Error> {
        let mut state = Box::new(RawVerifier::new());
        Error::of(ffi::verify_begin(&mut state, job, signature.as_ref()))?;
        Ok(MessageVerifier { state, signature })
    }

    /// Takes a piece of the message, after those before.
    ///
    /// # Errors
    /// [`Error::MessageTooLong`], after which it is as before.
    pub fn update(&mut self, piece: &[u8]) -> Result<(), Error> {
        Error::of(ffi::verify_update(&mut self.state, piece))
    }

    /// Verifies the signature of what was taken.
    ///
    /// # Errors
    /// [`Error::Invalid`]
    pub fn finish(mut self) -> Result<(), Error> {
        Error::of(ffi::verify_finish(&mut self.state, self.signature.as_ref()))
    }
}

/// The first pass over a message that is signed piece by piece, by
/// [`SigningKey::sign_pieces`](crate::SigningKey::sign_pieces).
///
/// ```
/// # use slh_dsa_verified::{Sha2_128f, SigningKey};
/// # let key = SigningKey::<Sha2_128f>::generate()?;
/// let message: &[u8] = b"Version 1.2 is out."; // a file that is read twice, say
/// let mut pass = key.sign_pieces(b"", None)?;
/// std::io::copy(&mut &message[..], &mut pass)?;
/// let mut pass = pass.again()?;
/// std::io::copy(&mut &message[..], &mut pass)?;
/// let signature = pass.finish()?;
/// # key.verifying_key().try_verify_with_context(message, b"", &signature)?;
/// # Ok::<(), Box<dyn std::error::Error>>(())
/// ```
#[must_use = "nothing is signed before the second pass"]
pub struct FirstPass<'k, P: ParameterSet> {
    state: Box<RawSigner>,
    key: &'k SigningKey<P>,
    context: Vec<u8>,
}

impl<'k, P: ParameterSet> FirstPass<'k, P> {
    pub(crate) fn new(
        key: &'k SigningKey<P>,
        job: &ffi::Job<'_>,
        context: &[u8],
        opt_rand: Option<&[u8]>,
    ) -> Result<Self, Error> {
        let mut state = Box::new(RawSigner::new());
        Error::of(ffi::sign_begin(&mut state, job, opt_rand))?;
        Ok(FirstPass { state, key, context: context.to_vec() })
    }

    /// Takes a piece of the message, after those before.
    ///
    /// # Errors
    /// [`Error::MessageTooLong`], after which it is as before.
    pub fn update(&mut self, piece: &[u8]) -> Result<(), Error> {
        Error::of(ffi::sign_update(&mut self.state, piece))
    }

    /// Begins the second pass, which takes the same message once more.
    ///
    /// # Errors
    /// None that can come: the context was looked at when the first pass began.
    pub fn again(mut self) -> Result<SecondPass<'k, P>, Error> {
        Error::of(ffi::sign_again(&mut self.state, &self.context))?;
        Ok(SecondPass { state: self.state, key: self.key })
    }
}

/// The second pass over a message that is signed piece by piece.
#[must_use = "nothing is signed before `finish`"]
pub struct SecondPass<'k, P: ParameterSet> {
    state: Box<RawSigner>,
    key: &'k SigningKey<P>,
}

impl<P: ParameterSet> SecondPass<'_, P> {
    /// Takes a piece of the message, after those before.
    ///
    /// # Errors
    /// [`Error::MessageTooLong`], after which it is as before.
    pub fn update(&mut self, piece: &[u8]) -> Result<(), Error> {
        Error::of(ffi::sign_update(&mut self.state, piece))
    }

    /// The signature of what this pass took.
    ///
    /// # Errors
    /// [`Error::Changed`] where the first pass took something else.
    pub fn finish(mut self) -> Result<Signature<P>, Error> {
        let mut signature = Signature::zeros();
        let status =
            ffi::sign_finish(&mut self.state, self.key.secret_bytes(), signature.bytes_mut());
        Error::of(status)?;
        Ok(signature)
    }
}

/// Makes a writer of what takes pieces: a piece is taken whole, or refused with
/// [`io::ErrorKind::InvalidInput`].
macro_rules! writer {
    ($name:ident) => {
        impl<P: ParameterSet> Write for $name<'_, P> {
            fn write(&mut self, piece: &[u8]) -> io::Result<usize> {
                match self.update(piece) {
                    Ok(()) => Ok(piece.len()),
                    Err(error) => Err(io::Error::new(io::ErrorKind::InvalidInput, error)),
                }
            }

            fn flush(&mut self) -> io::Result<()> {
                Ok(())
            }
        }

        impl<P: ParameterSet> fmt::Debug for $name<'_, P> {
            fn fmt(&self, formatter: &mut fmt::Formatter<'_>) -> fmt::Result {
                write!(formatter, "<{} {}>", stringify!($name), P::NAME)
            }
        }
    };
}

writer!(MessageVerifier);
writer!(FirstPass);
writer!(SecondPass);
