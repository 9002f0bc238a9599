//! Messages in pieces against the calls for the whole.

mod common;

use std::io::Write;

use common::{bent, known_key};
use slh_dsa_verified::{Error, Mode, ParameterSet, Sha2_128f, Signature, SigningKey};

const MESSAGE: &[u8] = b"A message of some bytes, more than one block of each hash: \
    0123456789012345678901234567890123456789012345678901234567890123456789012345678901234567890";

fn verified<P: ParameterSet>(
    key: &SigningKey<P>,
    mode: Mode,
    pieces: &[&[u8]],
    signature: &Signature<P>,
) -> Result<(), Error> {
    let mut verifier = key.verifying_key().verify_pieces(mode, b"ctx", signature)?;
    for piece in pieces {
        verifier.update(piece)?;
    }
    verifier.finish()
}

fn cuts<P: ParameterSet>() {
    let key = known_key::<P>();
    for mode in [Mode::Pure, Mode::Sha256, Mode::Sha512] {
        let signature = key.sign_in_mode(mode, MESSAGE, b"ctx", None).expect("signed");
        for cut in [0, 1, 63, 64, 65, 127, 128, 129, MESSAGE.len()] {
            let (first, second) = MESSAGE.split_at(cut);
            assert_eq!(verified(&key, mode, &[first, second], &signature), Ok(()));
            let other = verified(&key, mode, &[second, first], &signature);
            assert_eq!(other.is_ok(), cut == 0 || cut == MESSAGE.len());
        }
    }
}

#[test]
fn pieces_are_verified_as_the_whole() {
    cuts::<Sha2_128f>();
    cuts::<slh_dsa_verified::Sha2_192f>();
    cuts::<slh_dsa_verified::Sha2_256f>();
}

fn signed<P: ParameterSet>(
    key: &SigningKey<P>,
    opt_rand: Option<&[u8]>,
    first: &[&[u8]],
    second: &[&[u8]],
) -> Result<Signature<P>, Error> {
    let mut pass = key.sign_pieces(b"ctx", opt_rand)?;
    for piece in first {
        pass.update(piece)?;
    }
    let mut pass = pass.again()?;
    for piece in second {
        pass.update(piece)?;
    }
    pass.finish()
}

fn twice<P: ParameterSet>() {
    let key = known_key::<P>();
    let rand = vec![9; P::N];
    for opt_rand in [None, Some(rand.as_slice())] {
        let whole = key.try_sign_with_context(MESSAGE, b"ctx", opt_rand).expect("signed");
        let (first, second) = MESSAGE.split_at(100);
        assert_eq!(signed(&key, opt_rand, &[first, second], &[MESSAGE]), Ok(whole));
        for second in [&MESSAGE[1..], &bent(MESSAGE, 70), b""] {
            assert_eq!(signed(&key, opt_rand, &[MESSAGE], &[second]), Err(Error::Changed));
        }
    }
}

#[test]
fn pieces_are_signed_as_the_whole() {
    twice::<Sha2_128f>();
    twice::<slh_dsa_verified::Sha2_192f>();
    twice::<slh_dsa_verified::Sha2_256f>();
}

#[test]
fn refusals() {
    let key = known_key::<Sha2_128f>();
    let signature = key.try_sign_with_context(b"m", b"", None).expect("signed");
    let long = [0; 256];
    let verifier = key.verifying_key().verify_pieces(Mode::Pure, &long, &signature);
    assert_eq!(verifier.map(drop), Err(Error::ContextTooLong));
    assert_eq!(key.sign_pieces(&long, Some(b"1")).map(drop), Err(Error::ContextTooLong));
    assert_eq!(key.sign_pieces(b"", Some(b"1")).map(drop), Err(Error::RandomizerLength));
}

#[test]
fn writers_take_all() {
    let key = known_key::<Sha2_128f>();
    let mut pass = key.sign_pieces(b"", None).expect("begun");
    pass.write_all(MESSAGE).expect("taken");
    let mut pass = pass.again().expect("begun again");
    pass.write_all(MESSAGE).expect("taken");
    let signature = pass.finish().expect("signed");
    let mut verifier =
        key.verifying_key().verify_pieces(Mode::Pure, b"", &signature).expect("begun");
    verifier.write_all(MESSAGE).expect("taken");
    let other = verifier.clone();
    assert_eq!(verifier.finish(), Ok(()));
    assert_eq!(other.finish(), Ok(()));
}
