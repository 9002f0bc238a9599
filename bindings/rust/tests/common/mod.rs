//! What the tests share: data from outside, and keys of seeds that everybody knows.

#![allow(dead_code)] // each test takes what it needs

use std::io::Write;
use std::process::{Command, Stdio};

use slh_dsa_verified::{ParameterSet, SigningKey};

/// A file of `examples/data`.
pub fn data(name: &str) -> String {
    let folder = concat!(env!("CARGO_MANIFEST_DIR"), "/../../examples/data/");
    std::fs::read_to_string(format!("{folder}{name}")).expect(name)
}

/// The key of the seeds 01.., 02.. and 03.., which `examples/data/README.md` tells of.
pub fn known_key<P: ParameterSet>() -> SigningKey<P> {
    let seed = |byte| vec![byte; P::N];
    SigningKey::from_seeds(&seed(1), &seed(2), &seed(3)).expect("three seeds of n bytes")
}

/// What a program writes where this is its input.
pub fn output_of(program: &str, words: &[&str], input: &[u8]) -> Vec<u8> {
    let mut child = Command::new(program)
        .args(words)
        .stdin(Stdio::piped())
        .stdout(Stdio::piped())
        .spawn()
        .unwrap_or_else(|error| panic!("{program}: {error}"));
    child.stdin.take().expect("its input").write_all(input).expect("it reads");
    let output = child.wait_with_output().expect("it ends");
    assert!(output.status.success(), "{program}");
    output.stdout
}

/// The SHA-256 of bytes in hexadecimal, by `sha256sum`.
pub fn sha256(bytes: &[u8]) -> String {
    let text = String::from_utf8(output_of("sha256sum", &[], bytes)).expect("text");
    text[..64].to_owned()
}

/// The bytes of a text in hexadecimal.
pub fn unhex(text: &str) -> Vec<u8> {
    let digits: Vec<u32> = text.chars().map(|c| c.to_digit(16).expect("a digit")).collect();
    digits.chunks(2).map(|pair| u8::try_from(pair[0] * 16 + pair[1]).expect("a byte")).collect()
}

/// The same bytes with another bit.
pub fn bent(bytes: &[u8], at: usize) -> Vec<u8> {
    let mut bent = bytes.to_vec();
    bent[at] ^= 1;
    bent
}

/// Makes a test of a function over a set for each of the six sets.
#[macro_export]
macro_rules! for_each_set {
    ($test:ident) => {
        $test::<slh_dsa_verified::Sha2_128s>();
        $test::<slh_dsa_verified::Sha2_128f>();
        $test::<slh_dsa_verified::Sha2_192s>();
        $test::<slh_dsa_verified::Sha2_192f>();
        $test::<slh_dsa_verified::Sha2_256s>();
        $test::<slh_dsa_verified::Sha2_256f>();
    };
}
