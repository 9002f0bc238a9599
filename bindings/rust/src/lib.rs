//! SLH-DSA (FIPS 205) over SHA-2, by the calls of a verified library for C.
//!
//! ```
//! use slh_dsa_verified::{Error, Sha2_128f, Signature, SigningKey, VerifyingKey};
//!
//! let key = SigningKey::<Sha2_128f>::generate()?;
//! let message = b"Version 1.2 is out.";
//! let signature = key.try_sign_with_context(message, b"example.org", None)?;
//!
//! let public = VerifyingKey::<Sha2_128f>::try_from(key.verifying_key().to_bytes().as_slice())?;
//! let received = Signature::try_from(signature.to_vec().as_slice())?;
//! public.try_verify_with_context(message, b"example.org", &received)?;
//! let other = public.try_verify_with_context(b"Version 1.3 is out.", b"example.org", &received);
//! assert_eq!(other, Err(Error::Invalid));
//! # Ok::<(), Error>(())
//! ```
//!
//! The names and the calls are those of the Rust crate `slh-dsa`, as far as they are in both. What
//! the library proves is proved of the calls in C: this crate hands its arguments over, and is
//! tested and not proved.
//!
//! **In pieces.** [`VerifyingKey::verify_pieces`] and [`SigningKey::sign_pieces`] take a message of
//! any size piece by piece, as writers do.
//!
//! **Secrets.** The library is not constant-time. A [`SigningKey`] lies on the heap, and its bytes
//! are cleared when it is dropped, as are the random bytes that were made for it. What a caller
//! copies isn't ([`SigningKey::to_bytes`]). The library clears the stack of its calls.
//!
//! **Threads.** All types are `Send` and `Sync`, and calls share nothing. A call takes up to 112 kB
//! of the thread's stack.
//!
//! **Digests.** [`Mode::Sha256`] is meant for the sets of 128 bits alone (FIPS 205, section
//! 10.2.2). Nothing checks that.
//!
//! **Features.** `signature`: the traits of the crate `signature`, by the manifest
//! `with_signature/Cargo.toml`.

#![deny(missing_docs, unsafe_code)]

mod error;
mod evidence;
mod ffi;
mod mode;
mod pieces;
mod random;
mod secret;
mod set;
mod signature_bytes;
#[cfg(feature = "signature")]
mod signature_traits;
mod signing_key;
mod verifying_key;

pub use error::Error;
pub use evidence::Evidence;
pub use mode::Mode;
pub use pieces::{FirstPass, MessageVerifier, SecondPass};
pub use set::{
    Bytes, ParameterSet, Sha2_128f, Sha2_128s, Sha2_192f, Sha2_192s, Sha2_256f, Sha2_256s,
};
#[cfg(feature = "signature")]
pub use signature;
pub use signature_bytes::Signature;
pub use signing_key::SigningKey;
pub use verifying_key::VerifyingKey;
