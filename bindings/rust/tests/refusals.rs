//! Each refusal by its name, and what is no signature of this.

mod common;

use common::{bent, known_key};
use slh_dsa_verified::{
    Error, Evidence, Mode, ParameterSet, Sha2_128f, Sha2_128s, Sha2_192f, Signature, SigningKey,
    VerifyingKey,
};

type Key = SigningKey<Sha2_128f>;

fn signed(message: &[u8], context: &[u8]) -> (Key, Signature<Sha2_128f>) {
    let key = known_key::<Sha2_128f>();
    let signature = key.try_sign_with_context(message, context, None).expect("signed");
    (key, signature)
}

fn lengths<P: ParameterSet>() {
    let (secret, public) = (vec![7; 4 * P::N], vec![7; 2 * P::N]);
    let signature = known_key::<P>().try_sign_with_context(b"m", b"", None).expect("signed");
    for more in [0, 1, secret.len() - 1] {
        let key = SigningKey::<P>::try_from(&secret[..more]);
        assert_eq!(key, Err(Error::Length));
    }
    let longer = [secret.as_slice(), b"\0"].concat();
    assert_eq!(SigningKey::<P>::try_from(longer.as_slice()), Err(Error::Length));
    assert!(SigningKey::<P>::try_from(secret.as_slice()).is_ok());

    for bytes in [&public[1..], &[], &secret] {
        assert_eq!(VerifyingKey::<P>::try_from(bytes), Err(Error::Length));
    }
    assert!(VerifyingKey::<P>::try_from(public.as_slice()).is_ok());

    let bytes = signature.to_vec();
    let longer = [bytes.as_slice(), b"\0"].concat();
    for bytes in [&bytes[1..], &longer, &[]] {
        assert_eq!(Signature::<P>::try_from(bytes), Err(Error::Length));
    }
    assert_eq!(Signature::<P>::try_from(bytes.as_slice()), Ok(signature));
}

#[test]
fn other_lengths() {
    for_each_set!(lengths);
}

#[test]
fn seeds_of_other_lengths() {
    let n: &[u8] = &[1; 16];
    for (sk_seed, sk_prf, pk_seed) in [
        (&n[1..], n, n),
        (n, &n[1..], n),
        (n, n, &n[1..]),
        (n, n, &[1; 17]),
        (&[1; 17], &n[1..], n),
        (&[], &[], &[]),
    ] {
        assert_eq!(Key::from_seeds(sk_seed, sk_prf, pk_seed), Err(Error::Length));
    }
    assert!(Key::from_seeds(n, n, n).is_ok());
}

#[test]
fn digests_of_other_lengths() {
    let (key, signature) = signed(b"m", b"");
    let public = key.verifying_key();
    for (mode, len) in [
        (Mode::Pure, 0),
        (Mode::Pure, 32),
        (Mode::Pure, 64),
        (Mode::Sha256, 64),
        (Mode::Sha256, 31),
        (Mode::Sha256, 0),
        (Mode::Sha512, 32),
        (Mode::Sha512, 65),
    ] {
        let digest = vec![1; len];
        assert_eq!(key.sign_digest(mode, &digest, b"", None), Err(Error::Length));
        let verified = public.verify_digest(mode, &digest, b"", &signature);
        assert_eq!(verified, Err(Error::Length), "{mode:?} {len}");
    }
}

#[test]
fn contexts_of_more_than_255_bytes() {
    let (key, signature) = signed(b"m", &[7; 255]);
    let public = key.verifying_key();
    assert_eq!(public.try_verify_with_context(b"m", &[7; 255], &signature), Ok(()));
    let (long, error) = (&[7; 256][..], Error::ContextTooLong);
    assert_eq!(public.try_verify_with_context(b"m", long, &signature), Err(error));
    assert_eq!(public.verify_digest(Mode::Sha256, &[1; 32], long, &signature), Err(error));
    assert_eq!(key.try_sign_with_context(b"m", long, None), Err(error));
    assert_eq!(key.sign_digest(Mode::Sha256, &[1; 32], long, None), Err(error));
    assert_eq!(key.sign_hedged(Mode::Sha512, b"m", long), Err(error));
    assert_eq!(key.audit(Mode::Pure, b"m", long, &signature), Err(error));
    let evidence = Evidence::ForsRoots;
    let checked = key.check_evidence(Mode::Pure, b"m", long, &signature, evidence);
    assert_eq!(checked, Err(error));
    // the first of two causes
    assert_eq!(key.try_sign_with_context(b"m", long, Some(&[])), Err(error));
}

#[test]
fn randomizers_of_other_lengths() {
    let (key, _) = signed(b"m", b"");
    for randomizer in [&[1; 15][..], &[1; 17], &[]] {
        let error = Err(Error::RandomizerLength);
        assert_eq!(key.try_sign_with_context(b"m", b"", Some(randomizer)), error);
        assert_eq!(key.sign_digest(Mode::Sha512, &[1; 64], b"", Some(randomizer)), error);
    }
    assert!(key.try_sign_with_context(b"m", b"", Some(&[1; 16])).is_ok());
}

#[test]
fn a_root_of_other_seeds() {
    let (key, signature) = signed(b"m", b"");
    assert_eq!(key.check(), Ok(()));
    let other = Key::try_from(bent(&key.to_vec(), 63).as_slice()).expect("its length is right");
    let (mode, error) = (Mode::Pure, Error::KeyMismatch);
    assert_eq!(other.check(), Err(error));
    assert_eq!(other.audit(mode, b"m", b"", &signature), Err(error));
    // which a check of evidence doesn't look at
    let checked = other.check_evidence(mode, b"m", b"", &signature, Evidence::ForsRoots);
    assert_eq!(checked, Err(Error::NotShown));
}

#[test]
fn what_is_no_signature_of_this() {
    let (key, signature) = signed(b"message", b"context");
    let public = key.verifying_key();
    let verify = |message: &[u8], context: &[u8], signature: &Signature<_>| {
        public.try_verify_with_context(message, context, signature)
    };
    assert_eq!(verify(b"message", b"context", &signature), Ok(()));
    for (message, context) in
        [(&b"messag"[..], &b"context"[..]), (b"", b"context"), (b"message", b"")]
    {
        assert_eq!(verify(message, context, &signature), Err(Error::Invalid));
        assert_eq!(key.audit(Mode::Pure, message, context, &signature), Err(Error::Invalid));
    }
    let bytes = signature.to_vec();
    for at in [0, 15, 16, 3711, 3712, bytes.len() - 1] {
        let bent = Signature::try_from(bent(&bytes, at).as_slice()).expect("its length");
        assert_eq!(verify(b"message", b"context", &bent), Err(Error::Invalid), "{at}");
    }
    assert_eq!(key.audit(Mode::Pure, b"message", b"context", &signature), Ok(()));
}

#[test]
fn a_signature_under_another_key() {
    let (key, signature) = signed(b"m", b"");
    let other = Key::generate().expect("random bytes");
    let verified = other.verifying_key().try_verify_with_context(b"m", b"", &signature);
    assert_eq!(verified, Err(Error::Invalid));
    assert_eq!(other.audit(Mode::Pure, b"m", b"", &signature), Err(Error::Invalid));
    // 128s has keys of the same length, which are others all the same
    let same = SigningKey::<Sha2_128s>::try_from(key.to_vec().as_slice()).expect("its length");
    assert_eq!(same.check(), Err(Error::KeyMismatch));
    assert_eq!(Signature::<Sha2_128s>::try_from(signature.as_ref()), Err(Error::Length));
    let longer = SigningKey::<Sha2_192f>::try_from(key.to_vec().as_slice());
    assert_eq!(longer, Err(Error::Length));
}
