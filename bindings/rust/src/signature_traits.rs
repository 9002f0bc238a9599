//! The traits of the crate `signature`, as the Rust crate has them.

use signature::rand_core::CryptoRngCore;
use signature::{KeypairRef, RandomizedSigner, Signer, Verifier};

use crate::error::Error;
use crate::secret::Secret;
use crate::set::ParameterSet;
use crate::signature_bytes::Signature;
use crate::signing_key::SigningKey;
use crate::verifying_key::VerifyingKey;

impl From<Error> for signature::Error {
    fn from(error: Error) -> Self {
        signature::Error::from_source(error)
    }
}

/// The deterministic variant, without a context.
impl<P: ParameterSet> Signer<Signature<P>> for SigningKey<P> {
    fn try_sign(&self, msg: &[u8]) -> Result<Signature<P>, signature::Error> {
        Ok(self.try_sign_with_context(msg, &[], None)?)
    }
}

/// With n random bytes, without a context.
impl<P: ParameterSet> RandomizedSigner<Signature<P>> for SigningKey<P> {
    fn try_sign_with_rng(
        &self,
        rng: &mut impl CryptoRngCore,
        msg: &[u8],
    ) -> Result<Signature<P>, signature::Error> {
        let mut randomizer = Secret::zeros(P::N);
        rng.try_fill_bytes(randomizer.bytes_mut()).map_err(|_| Error::NoRandom)?;
        Ok(self.try_sign_with_context(msg, &[], Some(randomizer.bytes()))?)
    }
}

/// Without a context.
impl<P: ParameterSet> Verifier<Signature<P>> for VerifyingKey<P> {
    fn verify(&self, msg: &[u8], signature: &Signature<P>) -> Result<(), signature::Error> {
        Ok(self.try_verify_with_context(msg, &[], signature)?)
    }
}

impl<P: ParameterSet> KeypairRef for SigningKey<P> {
    type VerifyingKey = VerifyingKey<P>;
}
