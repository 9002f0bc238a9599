//! The traits of the crate `signature`, by `with_signature/Cargo.toml`.

#![cfg(feature = "signature")]

use signature::rand_core::{CryptoRng, Error, RngCore};
use signature::{Keypair, RandomizedSigner, SignatureEncoding, Signer, Verifier};
use slh_dsa_verified::{Sha2_128f, Signature, SigningKey};

/// Bytes that count from 0, and none after so many calls.
struct Counter(u8);

impl RngCore for Counter {
    fn next_u32(&mut self) -> u32 {
        unreachable!("bytes are asked for")
    }

    fn next_u64(&mut self) -> u64 {
        unreachable!("bytes are asked for")
    }

    fn fill_bytes(&mut self, bytes: &mut [u8]) {
        self.try_fill_bytes(bytes).expect("bytes");
    }

    fn try_fill_bytes(&mut self, bytes: &mut [u8]) -> Result<(), Error> {
        if self.0 == 0 {
            return Err(Error::new("no more"));
        }
        self.0 -= 1;
        for (place, byte) in bytes.iter_mut().zip(0..) {
            *place = byte;
        }
        Ok(())
    }
}

impl CryptoRng for Counter {}

fn signed_by(key: &impl Signer<Signature<Sha2_128f>>) -> Signature<Sha2_128f> {
    key.sign(b"m")
}

fn is_accepted(
    key: &impl Verifier<Signature<Sha2_128f>>,
    signature: &Signature<Sha2_128f>,
) -> bool {
    key.verify(b"m", signature).is_ok()
}

#[test]
fn the_traits_are_the_calls() {
    let key = SigningKey::<Sha2_128f>::from_seeds(&[1; 16], &[2; 16], &[3; 16]).expect("a key");
    let signature = signed_by(&key);
    assert_eq!(key.try_sign_with_context(b"m", b"", None), Ok(signature.clone()));
    assert!(is_accepted(&Keypair::verifying_key(&key), &signature));

    let counted: Vec<u8> = (0..16).collect();
    let randomized = key.try_sign_with_rng(&mut Counter(1), b"m").expect("signed");
    assert_eq!(key.try_sign_with_context(b"m", b"", Some(&counted)), Ok(randomized.clone()));
    assert!(is_accepted(key.as_ref(), &randomized));
    assert!(key.try_sign_with_rng(&mut Counter(0), b"m").is_err());

    let bytes = SignatureEncoding::to_bytes(&signature);
    assert_eq!(signature.encoded_len(), 17088);
    assert_eq!(bytes.as_slice(), signature.as_ref());
    let mut bent = bytes;
    bent[9] ^= 1;
    let bent = Signature::from(&bent);
    assert!(!is_accepted(key.as_ref(), &bent));
    let error = key.verifying_key().verify(b"m", &bent).expect_err("invalid");
    let source = std::error::Error::source(&error).expect("a source");
    assert_eq!(source.to_string(), "the signature is not one of this message under this key");
}
