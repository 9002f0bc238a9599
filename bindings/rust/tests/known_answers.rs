//! Answers from outside: signatures of the Rust crate, keys of OpenSSL, a foreign signature.

mod common;

use common::{bent, data, known_key, output_of, sha256, unhex};
use slh_dsa_verified::{
    Error, Evidence, Mode, ParameterSet, Sha2_128f, Signature, SigningKey, VerifyingKey,
};

/// What a known answer is of, by `examples/data/README.md`; digests by `sha256sum` and FIPS 180-4.
struct Signed {
    mode: Mode,
    message: &'static [u8],
    context: &'static [u8],
    digest: &'static str,
    has_randomizer: bool,
}

const PURE: Signed =
    Signed { mode: Mode::Pure, message: b"Hello", context: b"", digest: "", has_randomizer: false };

const SHA256: Signed = Signed {
    mode: Mode::Sha256,
    message: b"Hello, world!",
    context: b"Test context!",
    digest: "315f5bdb76d078c43b8ac0064e4a0164612b1fce77c869345bfc94c75894edd3",
    has_randomizer: false,
};

const SHA512: Signed = Signed {
    mode: Mode::Sha512,
    message: b"abc",
    context: b"",
    digest: "ddaf35a193617abacc417349ae20413112e6fa4e89a97ea20a9eeee64b55d39a\
             2192992a274fc1a836ba3c23a3feebbd454d4423643ce80e2a9ac94fa54ca49f",
    has_randomizer: true,
};

/// The SHA-256 that the file has for a set's signature in a mode.
fn answer(set: &str, mode: &str) -> String {
    let rows = data("known_answers.txt");
    let row = rows.lines().find_map(|row| row.strip_prefix(&format!("{set} {mode} ")));
    row.expect("a row").to_owned()
}

fn verified<P: ParameterSet>(key: &VerifyingKey<P>, signed: &Signed, signature: &Signature<P>) {
    let Signed { mode, message, context, digest, .. } = *signed;
    for other in [Mode::Pure, Mode::Sha256, Mode::Sha512] {
        let wanted = if other == mode { Ok(()) } else { Err(Error::Invalid) };
        assert_eq!(key.verify_in_mode(other, message, context, signature), wanted);
    }
    if mode == Mode::Pure {
        assert_eq!(key.try_verify_with_context(message, context, signature), Ok(()));
    } else {
        assert_eq!(key.verify_digest(mode, &unhex(digest), context, signature), Ok(()));
        let bent = bent(&unhex(digest), 0);
        assert_eq!(key.verify_digest(mode, &bent, context, signature), Err(Error::Invalid));
    }
}

fn answers<P: ParameterSet>() {
    let key = known_key::<P>();
    for (name, signed) in [("pure", PURE), ("sha256", SHA256), ("sha512", SHA512)] {
        let Signed { mode, message, context, digest, has_randomizer } = signed;
        let counted: Vec<u8> = (0..).take(P::N).collect();
        let randomizer = has_randomizer.then_some(counted.as_slice());
        let signature = key.sign_in_mode(mode, message, context, randomizer).expect("signed");
        assert_eq!(sha256(signature.as_ref()), answer(P::NAME, name), "{} {name}", P::NAME);
        if mode == Mode::Pure {
            let by_name = key.try_sign_with_context(message, context, randomizer);
            assert_eq!(by_name, Ok(signature.clone()));
        } else {
            let by_digest = key.sign_digest(mode, &unhex(digest), context, randomizer);
            assert_eq!(by_digest, Ok(signature.clone()));
        }
        verified(&key.verifying_key(), &signed, &signature);
    }
}

#[test]
fn signatures_are_those_of_the_rust_crate() {
    for_each_set!(answers);
}

/// The last bytes of the first, and of the second block in PEM behind a set's place.
fn openssl_keys(set: usize, n: usize) -> (Vec<u8>, Vec<u8>) {
    let pems = data("openssl_keys.pem");
    let der = |block: usize, bytes: usize| {
        let pem = pems.split("-----BEGIN ").nth(block + 1).expect("a block");
        let lines: String = pem.lines().skip(1).take_while(|line| !line.starts_with('-')).collect();
        let der = output_of("base64", &["--decode"], lines.as_bytes());
        der[der.len() - bytes..].to_vec()
    };
    (der(2 * set, 4 * n), der(2 * set + 1, 2 * n))
}

fn openssl<P: ParameterSet>() {
    let (secret, public) = openssl_keys(P::NUMBER as usize - 1, P::N);
    let key = SigningKey::<P>::try_from(secret.as_slice()).expect("a key");
    assert_eq!(key.check(), Ok(()));
    assert_eq!(key.to_vec(), secret);
    assert_eq!(key.verifying_key().to_vec(), public);
    let seeds = secret.chunks(P::N).collect::<Vec<_>>();
    assert_eq!(SigningKey::from_seeds(seeds[0], seeds[1], seeds[2]), Ok(key));
}

#[test]
fn keys_are_those_of_openssl() {
    for_each_set!(openssl);
}

#[test]
fn a_foreign_signature_has_its_evidence() {
    let line = data("foreign_128f.txt");
    let fields: Vec<&str> = line.split_whitespace().collect();
    assert_eq!(fields[..2], ["SLH-DSA-SHA2-128f", "audit"]);
    assert_eq!(fields[3], "-");
    let key = SigningKey::<Sha2_128f>::try_from(unhex(fields[2]).as_slice()).expect("a key");
    let message = unhex(fields[4]);
    let signature = Signature::try_from(unhex(fields[5]).as_slice()).expect("a signature");
    let accepted = key.verifying_key().try_verify_with_context(&message, b"", &signature);
    assert_eq!(accepted, Ok(()));

    let evidence = Evidence::Early { layer: 0, chain: 1 };
    let found = key.audit(Mode::Pure, &message, b"", &signature);
    assert_eq!(found, Err(Error::Foreign(evidence)));
    let check = |evidence| key.check_evidence(Mode::Pure, &message, b"", &signature, evidence);
    assert_eq!(check(evidence), Ok(()));
    for other in [
        Evidence::Early { layer: 1, chain: 1 },
        Evidence::Early { layer: 0, chain: 0 },
        Evidence::Early { layer: 0, chain: u32::MAX },
        Evidence::Leaf { layer: 0 },
        Evidence::ForsRoots,
    ] {
        assert_eq!(check(other), Err(Error::NotShown), "{other}");
    }
}
