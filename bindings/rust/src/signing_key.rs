//! Signing keys.

use std::fmt;

use crate::error::Error;
use crate::evidence::Evidence;
use crate::ffi::{self, Job, RawEvidence};
use crate::mode::Mode;
use crate::pieces::FirstPass;
use crate::random;
use crate::secret::Secret;
use crate::set::{Bytes, ParameterSet};
use crate::signature_bytes::Signature;
use crate::verifying_key::VerifyingKey;

/// A secret key: the secret seed, the PRF key, the public seed and the root, each of n bytes.
///
/// Its bytes lie on the heap, are cleared when it is dropped, and aren't shown.
#[derive(Clone)]
pub struct SigningKey<P: ParameterSet> {
    secret: Secret,
    verifying_key: VerifyingKey<P>,
}

impl<P: ParameterSet> SigningKey<P> {
    /// Makes a key of 3n bytes that `random` writes, which have to be random and secret.
    ///
    /// With a generator of the crate `rand` that is
    /// `SigningKey::new(|bytes| rng.fill_bytes(bytes))`.
    ///
    /// # Panics
    /// Where the library refuses 3n bytes, which none of this crate's version does.
    pub fn new(random: impl FnOnce(&mut [u8])) -> Self {
        let mut seeds = Secret::zeros(3 * P::N);
        random(seeds.bytes_mut());
        Self::of_seeds(&seeds).expect("3n bytes make a key")
    }

    /// Makes a key of random bytes of the system, from `/dev/urandom`.
    ///
    /// # Errors
    /// [`Error::NoRandom`]
    pub fn generate() -> Result<Self, Error> {
        let mut seeds = Secret::zeros(3 * P::N);
        random::fill(seeds.bytes_mut())?;
        Self::of_seeds(&seeds)
    }

    /// Makes the key of three seeds of n bytes each (algorithm 18). The first two are the secret.
    ///
    /// # Errors
    /// [`Error::Length`]
    pub fn from_seeds(sk_seed: &[u8], sk_prf: &[u8], pk_seed: &[u8]) -> Result<Self, Error> {
        let mut seeds = Secret::zeros(3 * P::N);
        for (place, seed) in seeds.bytes_mut().chunks_mut(P::N).zip([sk_seed, sk_prf, pk_seed]) {
            if seed.len() != place.len() {
                return Err(Error::Length);
            }
            place.copy_from_slice(seed);
        }
        Self::of_seeds(&seeds)
    }

    fn of_seeds(seeds: &Secret) -> Result<Self, Error> {
        let mut secret = Secret::zeros(4 * P::N);
        let mut public = P::VerifyingKeyBytes::zeros();
        let status = ffi::keygen(P::NUMBER, seeds.bytes(), secret.bytes_mut(), public.as_mut());
        Error::of(status)?;
        Ok(SigningKey { secret, verifying_key: VerifyingKey::of(public) })
    }

    /// Tells whether the key's root is that of its seeds, as that of each key that was made is. It
    /// takes as long as making one.
    ///
    /// # Errors
    /// [`Error::KeyMismatch`]
    pub fn check(&self) -> Result<(), Error> {
        Error::of(ffi::check_key(P::NUMBER, self.secret.bytes()))
    }

    /// The public half.
    #[must_use]
    pub fn verifying_key(&self) -> VerifyingKey<P> {
        self.verifying_key.clone()
    }

    /// The key's bytes, in an array that nobody clears.
    #[must_use]
    pub fn to_bytes(&self) -> P::SigningKeyBytes {
        let mut array = P::SigningKeyBytes::zeros();
        array.as_mut().copy_from_slice(self.secret.bytes());
        array
    }

    /// A copy of the key's bytes, which nobody clears.
    #[must_use]
    pub fn to_vec(&self) -> Vec<u8> {
        self.secret.bytes().to_vec()
    }

    /// Signs a message with a context (algorithm 22): with n fresh random bytes, or without any by
    /// the deterministic variant.
    ///
    /// # Errors
    /// [`Error::ContextTooLong`], [`Error::RandomizerLength`], [`Error::MessageTooLong`]
    pub fn try_sign_with_context(
        &self,
        msg: &[u8],
        ctx: &[u8],
        opt_rand: Option<&[u8]>,
    ) -> Result<Signature<P>, Error> {
        self.sign_in_mode(Mode::Pure, msg, ctx, opt_rand)
    }

    /// Signs a message in a mode (algorithms 22 and 23).
    ///
    /// # Errors
    /// [`Error::ContextTooLong`], [`Error::RandomizerLength`], [`Error::MessageTooLong`]
    pub fn sign_in_mode(
        &self,
        mode: Mode,
        msg: &[u8],
        ctx: &[u8],
        opt_rand: Option<&[u8]>,
    ) -> Result<Signature<P>, Error> {
        let mut signature = Signature::zeros();
        Error::of(ffi::sign(&self.job(mode, msg, ctx), opt_rand, signature.bytes_mut()))?;
        Ok(signature)
    }

    /// Signs by the digest of a message that was hashed elsewhere (algorithm 23).
    ///
    /// # Errors
    /// [`Error::Length`] where the digest isn't one of the mode, and in the mode [`Mode::Pure`],
    /// which has none; [`Error::ContextTooLong`], [`Error::RandomizerLength`]
    pub fn sign_digest(
        &self,
        mode: Mode,
        digest: &[u8],
        ctx: &[u8],
        opt_rand: Option<&[u8]>,
    ) -> Result<Signature<P>, Error> {
        let mut signature = Signature::zeros();
        let job = self.job(mode, digest, ctx);
        Error::of(ffi::sign_digest(&job, opt_rand, signature.bytes_mut()))?;
        Ok(signature)
    }

    /// [`sign_in_mode`](SigningKey::sign_in_mode) with random bytes of the system: the hedged
    /// variant, which FIPS 205 prefers.
    ///
    /// # Errors
    /// [`Error::NoRandom`], [`Error::ContextTooLong`], [`Error::MessageTooLong`]
    pub fn sign_hedged(&self, mode: Mode, msg: &[u8], ctx: &[u8]) -> Result<Signature<P>, Error> {
        let mut randomizer = Secret::zeros(P::N);
        random::fill(randomizer.bytes_mut())?;
        self.sign_in_mode(mode, msg, ctx, Some(randomizer.bytes()))
    }

    /// Begins to sign a message that comes in pieces, twice, as it is ([`Mode::Pure`]): with n
    /// fresh random bytes, or without any by the deterministic variant. A message that can be read
    /// only once is signed by its digest: [`sign_digest`](SigningKey::sign_digest).
    ///
    /// # Errors
    /// [`Error::ContextTooLong`], [`Error::RandomizerLength`]
    pub fn sign_pieces(
        &self,
        ctx: &[u8],
        opt_rand: Option<&[u8]>,
    ) -> Result<FirstPass<'_, P>, Error> {
        FirstPass::new(self, &self.job(Mode::Pure, &[], ctx), ctx, opt_rand)
    }

    /// Tells whether the key made a signature that it accepts.
    ///
    /// # Errors
    /// [`Error::Foreign`] with the first evidence where it didn't; [`Error::ContextTooLong`],
    /// [`Error::MessageTooLong`], [`Error::KeyMismatch`], [`Error::Invalid`]
    pub fn audit(
        &self,
        mode: Mode,
        msg: &[u8],
        ctx: &[u8],
        signature: &Signature<P>,
    ) -> Result<(), Error> {
        let mut evidence = RawEvidence::default();
        let status = ffi::audit(&self.job(mode, msg, ctx), signature.as_ref(), &mut evidence);
        Error::of_audit(status, Evidence::of_raw(evidence))
    }

    /// Tells whether evidence shows.
    ///
    /// # Errors
    /// [`Error::NotShown`], [`Error::ContextTooLong`], [`Error::MessageTooLong`]
    pub fn check_evidence(
        &self,
        mode: Mode,
        msg: &[u8],
        ctx: &[u8],
        signature: &Signature<P>,
        evidence: Evidence,
    ) -> Result<(), Error> {
        let (job, evidence) = (self.job(mode, msg, ctx), evidence.to_raw());
        Error::of(ffi::check_evidence(&job, signature.as_ref(), &evidence))
    }

    pub(crate) fn secret_bytes(&self) -> &[u8] {
        self.secret.bytes()
    }

    fn job<'a>(&'a self, mode: Mode, signed: &'a [u8], context: &'a [u8]) -> Job<'a> {
        Job::of::<P>(mode, self.secret.bytes(), signed, context)
    }
}

impl<P: ParameterSet> TryFrom<&[u8]> for SigningKey<P> {
    type Error = Error;

    /// [`Error::Length`] where the bytes are more or less than 4n. The root isn't looked at:
    /// [`check`](SigningKey::check) does that.
    fn try_from(bytes: &[u8]) -> Result<Self, Error> {
        let mut public = P::VerifyingKeyBytes::zeros();
        Error::of(ffi::public(P::NUMBER, bytes, public.as_mut()))?;
        Ok(SigningKey { secret: Secret::copy_of(bytes), verifying_key: VerifyingKey::of(public) })
    }
}

impl<P: ParameterSet> AsRef<VerifyingKey<P>> for SigningKey<P> {
    fn as_ref(&self) -> &VerifyingKey<P> {
        &self.verifying_key
    }
}

impl<P: ParameterSet> PartialEq for SigningKey<P> {
    fn eq(&self, other: &Self) -> bool {
        self.secret.is_same(&other.secret)
    }
}

impl<P: ParameterSet> Eq for SigningKey<P> {}

impl<P: ParameterSet> fmt::Debug for SigningKey<P> {
    fn fmt(&self, formatter: &mut fmt::Formatter<'_>) -> fmt::Result {
        write!(formatter, "<SigningKey {}>", P::NAME)
    }
}
