//! The parameter sets, as types.

use std::fmt::Debug;
use std::hash::Hash;

use crate::error::Error;
use crate::signature_bytes::Signature;
use crate::verifying_key::VerifyingKey;

mod sealed {
    pub trait Sealed {}
}

/// Bytes of a fixed number, which is that of a type: an array.
pub trait Bytes:
    AsRef<[u8]> + AsMut<[u8]> + Clone + Debug + Eq + Hash + Send + Sync + sealed::Sealed + 'static
{
    /// As many zeros.
    fn zeros() -> Self;
}

impl<const N: usize> sealed::Sealed for [u8; N] {}

impl<const N: usize> Bytes for [u8; N] {
    fn zeros() -> Self {
        [0; N]
    }
}

/// One of the six parameter sets over SHA-2 (FIPS 205, section 11, table 2).
pub trait ParameterSet:
    Clone + Copy + Debug + Default + Eq + Hash + Send + Sync + sealed::Sealed + 'static
{
    /// The set's name, as FIPS 205 has it.
    const NAME: &'static str;
    /// The set's number in `slh_dsa.h`.
    const NUMBER: u32;
    /// n, the bytes of a value: of each of the three seeds, and of a randomizer.
    const N: usize;
    /// A signing key: 4n bytes.
    type SigningKeyBytes: Bytes;
    /// A verifying key: 2n bytes.
    type VerifyingKeyBytes: Bytes;
    /// A signature.
    type SignatureBytes: Bytes;
}

macro_rules! parameter_sets {
    ($($set:ident, $name:literal, $number:literal, $n:literal, $signature:literal;)*) => {$(
        #[doc = concat!($name, ": signatures have ", stringify!($signature), " bytes.")]
        #[allow(non_camel_case_types)] // as the Rust crate has it
        #[derive(Clone, Copy, Debug, Default, PartialEq, Eq, Hash)]
        pub struct $set;

        impl sealed::Sealed for $set {}

        impl ParameterSet for $set {
            const NAME: &'static str = $name;
            const NUMBER: u32 = $number;
            const N: usize = $n;
            type SigningKeyBytes = [u8; 4 * $n];
            type VerifyingKeyBytes = [u8; 2 * $n];
            type SignatureBytes = [u8; $signature];
        }

        impl From<[u8; 2 * $n]> for VerifyingKey<$set> {
            fn from(bytes: [u8; 2 * $n]) -> Self {
                VerifyingKey::of(bytes)
            }
        }

        impl From<&VerifyingKey<$set>> for [u8; 2 * $n] {
            fn from(key: &VerifyingKey<$set>) -> Self {
                key.to_bytes()
            }
        }

        impl From<&[u8; $signature]> for Signature<$set> {
            fn from(bytes: &[u8; $signature]) -> Self {
                Signature::of(bytes.as_slice().into())
            }
        }

        impl From<Signature<$set>> for [u8; $signature] {
            fn from(signature: Signature<$set>) -> Self {
                signature.to_bytes()
            }
        }

        #[cfg(feature = "signature")]
        impl signature::SignatureEncoding for Signature<$set> {
            type Repr = [u8; $signature];
        }
    )*};
}

parameter_sets! {
    Sha2_128s, "SLH-DSA-SHA2-128s", 1, 16, 7856;
    Sha2_128f, "SLH-DSA-SHA2-128f", 2, 16, 17088;
    Sha2_192s, "SLH-DSA-SHA2-192s", 3, 24, 16224;
    Sha2_192f, "SLH-DSA-SHA2-192f", 4, 24, 35664;
    Sha2_256s, "SLH-DSA-SHA2-256s", 5, 32, 29792;
    Sha2_256f, "SLH-DSA-SHA2-256f", 6, 32, 49856;
}

/// The bytes of an array, where they are as many.
pub(crate) fn array_of<A: Bytes>(bytes: &[u8]) -> Result<A, Error> {
    let mut array = A::zeros();
    let places = array.as_mut();
    if places.len() != bytes.len() {
        return Err(Error::Length);
    }
    places.copy_from_slice(bytes);
    Ok(array)
}
