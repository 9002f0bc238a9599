//! Keys and signatures as values of Rust: made, copied, compared, shown, shared by threads.

mod common;

use std::thread;

use common::known_key;
use slh_dsa_verified::{
    Error, Mode, ParameterSet, Sha2_128f, Sha2_128s, Signature, SigningKey, VerifyingKey,
};

fn round_trip<P: ParameterSet>() {
    let key = SigningKey::<P>::generate().expect("random bytes");
    assert_eq!(key.check(), Ok(()));
    let copy = SigningKey::<P>::try_from(key.to_bytes().as_ref()).expect("a key");
    assert_eq!(copy, key);
    let public = VerifyingKey::<P>::try_from(copy.verifying_key().to_bytes().as_ref());
    let public = public.expect("a key");
    assert_eq!(&public, key.as_ref());
    assert_eq!(key.to_vec()[2 * P::N..], public.to_vec());

    let signature = copy.sign_hedged(Mode::Sha512, b"message", b"context").expect("signed");
    let signature = Signature::<P>::try_from(signature.to_bytes().as_ref()).expect("a signature");
    let verify = |mode| public.verify_in_mode(mode, b"message", b"context", &signature);
    assert_eq!(verify(Mode::Sha512), Ok(()));
    assert_eq!(verify(Mode::Pure), Err(Error::Invalid));
}

#[test]
fn new_keys_of_each_set() {
    for_each_set!(round_trip);
}

#[test]
fn new_keys_and_hedged_signatures_differ() {
    let key = SigningKey::<Sha2_128f>::generate().expect("random bytes");
    let other = SigningKey::<Sha2_128f>::generate().expect("random bytes");
    assert_ne!(key, other);
    assert_ne!(key.verifying_key(), other.verifying_key());
    let sign = || key.sign_hedged(Mode::Pure, b"m", b"").expect("signed");
    assert_ne!(sign(), sign());
    let sign = || key.try_sign_with_context(b"m", b"", None).expect("signed");
    assert_eq!(sign(), sign());
    // the deterministic variant has the public seed in the randomizer's place
    let seed = key.verifying_key().to_bytes();
    let by_seed = key.try_sign_with_context(b"m", b"", Some(&seed[..16]));
    assert_eq!(by_seed.expect("signed"), sign());
}

#[test]
fn a_key_of_a_source_of_random_bytes() {
    let mut calls = 0;
    let key = SigningKey::<Sha2_128f>::new(|bytes| {
        calls += 1;
        for (place, byte) in bytes.chunks_mut(16).zip(1..) {
            place.fill(byte);
        }
    });
    assert_eq!(calls, 1);
    assert_eq!(key, known_key());
}

#[test]
fn arrays_and_vectors() {
    let key = known_key::<Sha2_128f>();
    let public = key.verifying_key();
    let bytes: [u8; 32] = public.to_bytes();
    assert_eq!(VerifyingKey::<Sha2_128f>::from(bytes), public);
    assert_eq!(<[u8; 32]>::from(&public), bytes);
    let secret: [u8; 64] = key.to_bytes();
    assert_eq!(secret[32..], bytes);
    let signature = key.try_sign_with_context(b"m", b"", None).expect("signed");
    let bytes: [u8; 17088] = signature.clone().into();
    assert_eq!(Signature::from(&bytes), signature);
    assert_eq!(Vec::from(&signature), bytes);
}

#[test]
fn a_signing_key_shows_no_secret() {
    let key = known_key::<Sha2_128f>();
    assert_eq!(format!("{key:?}"), "<SigningKey SLH-DSA-SHA2-128f>");
    let shown = format!("{:?}", key.verifying_key());
    assert!(shown.starts_with("<VerifyingKey SLH-DSA-SHA2-128f 0303"), "{shown}");
    let signature = known_key::<Sha2_128s>().try_sign_with_context(b"m", b"", None);
    assert_eq!(format!("{:?}", signature.expect("signed")), "<Signature SLH-DSA-SHA2-128s>");
}

#[test]
fn threads_share_a_key() {
    fn is_shared<T: Send + Sync + 'static>() {}
    is_shared::<SigningKey<Sha2_128f>>();
    is_shared::<VerifyingKey<Sha2_128f>>();
    is_shared::<Signature<Sha2_128f>>();
    is_shared::<Error>();

    let key = &known_key::<Sha2_128f>();
    let wanted = &key.try_sign_with_context(b"thread", b"", None).expect("signed");
    thread::scope(|scope| {
        for _ in 0..4 {
            scope.spawn(move || {
                for _ in 0..5 {
                    let made = key.try_sign_with_context(b"thread", b"", None);
                    assert_eq!(made.as_ref(), Ok(wanted));
                    let public = key.verifying_key();
                    assert_eq!(public.try_verify_with_context(b"thread", b"", wanted), Ok(()));
                }
            });
        }
    });
}
