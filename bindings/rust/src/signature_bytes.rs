//! Signatures.

use std::fmt;
use std::marker::PhantomData;

use crate::error::Error;
use crate::set::{Bytes, ParameterSet};

/// Bytes of a signature's length, on the heap. Nothing else is known of them before they are
/// verified.
#[derive(Clone, PartialEq, Eq, Hash)]
pub struct Signature<P: ParameterSet> {
    bytes: Box<[u8]>,
    set: PhantomData<P>,
}

impl<P: ParameterSet> Signature<P> {
    /// Bytes whose number is right.
    pub(crate) fn of(bytes: Box<[u8]>) -> Self {
        Signature { bytes, set: PhantomData }
    }

    /// Room for a signature.
    pub(crate) fn zeros() -> Self {
        Signature::of(vec![0; Self::len()].into_boxed_slice())
    }

    fn len() -> usize {
        std::mem::size_of::<P::SignatureBytes>()
    }

    pub(crate) fn bytes_mut(&mut self) -> &mut [u8] {
        &mut self.bytes
    }

    /// The signature's bytes as an array, of up to 50 kB on the stack.
    #[must_use]
    pub fn to_bytes(&self) -> P::SignatureBytes {
        let mut array = P::SignatureBytes::zeros();
        array.as_mut().copy_from_slice(&self.bytes);
        array
    }

    /// A copy of the signature's bytes.
    #[must_use]
    pub fn to_vec(&self) -> Vec<u8> {
        self.bytes.to_vec()
    }
}

impl<P: ParameterSet> AsRef<[u8]> for Signature<P> {
    fn as_ref(&self) -> &[u8] {
        &self.bytes
    }
}

impl<P: ParameterSet> TryFrom<&[u8]> for Signature<P> {
    type Error = Error;

    /// [`Error::Length`] where the bytes are more or less than a signature of the set.
    fn try_from(bytes: &[u8]) -> Result<Self, Error> {
        if bytes.len() != Self::len() {
            return Err(Error::Length);
        }
        Ok(Signature::of(bytes.into()))
    }
}

impl<P: ParameterSet> From<&Signature<P>> for Vec<u8> {
    fn from(signature: &Signature<P>) -> Vec<u8> {
        signature.to_vec()
    }
}

impl<P: ParameterSet> fmt::Debug for Signature<P> {
    fn fmt(&self, formatter: &mut fmt::Formatter<'_>) -> fmt::Result {
        write!(formatter, "<Signature {}>", P::NAME)
    }
}
