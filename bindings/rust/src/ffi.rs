//! The calls of the library for C as functions of slices: the one module with `unsafe`.
//!
//! What `slh_dsa.h` asks of its callers holds for slices. No pointer is NULL, not even that of an
//! empty slice; as many initialized bytes as a length says stand there; nobody writes to a shared
//! slice during the call; and what is written is borrowed alone, so it overlaps nothing else. Room
//! on the stack is the caller's to have, as the crate's page says.

#![allow(unsafe_code)]

use std::ptr;
use std::sync::atomic::{compiler_fence, Ordering};

use crate::mode::Mode;
use crate::set::ParameterSet;

/// `slh_dsa_status`: [`Error::of`](crate::Error) tells what one means.
pub(crate) type Status = u32;

/// `slh_dsa_evidence`.
#[repr(C)]
#[derive(Clone, Copy, Debug, Default, PartialEq, Eq)]
pub(crate) struct RawEvidence {
    pub(crate) kind: u32,
    pub(crate) layer: u32,
    pub(crate) index: u32,
    pub(crate) level: u32,
}

/// `slh_dsa_verifier`: a verification between two pieces of its message.
#[repr(C)]
#[derive(Clone)]
pub(crate) struct RawVerifier {
    words: [u64; 93],
}

/// `slh_dsa_signer`: a signing between two pieces of its message. It is secret.
#[repr(C)]
pub(crate) struct RawSigner {
    words: [u64; 101],
}

impl RawVerifier {
    pub(crate) fn new() -> RawVerifier {
        RawVerifier { words: [0; 93] }
    }
}

impl RawSigner {
    pub(crate) fn new() -> RawSigner {
        RawSigner { words: [0; 101] }
    }
}

impl Drop for RawSigner {
    fn drop(&mut self) {
        for word in &mut self.words {
            // Safety: a word that is borrowed alone may be written.
            unsafe { ptr::write_volatile(word, 0) };
        }
        compiler_fence(Ordering::SeqCst);
    }
}

/// What is signed, verified or audited: a message or its digest, under the bytes of a key.
#[derive(Clone, Copy)]
pub(crate) struct Job<'a> {
    set: u32,
    mode: u32,
    key: &'a [u8],
    signed: &'a [u8],
    context: &'a [u8],
}

impl<'a> Job<'a> {
    pub(crate) fn of<P: ParameterSet>(
        mode: Mode,
        key: &'a [u8],
        signed: &'a [u8],
        context: &'a [u8],
    ) -> Job<'a> {
        Job { set: P::NUMBER, mode: mode.number(), key, signed, context }
    }
}

/// The declarations of `slh_dsa.h`, in its order.
#[rustfmt::skip]
mod c {
    use super::{RawEvidence, RawSigner, RawVerifier, Status};

    extern "C" {
        #[cfg(test)]
        pub(super) fn slh_dsa_sha2_n(set: u32) -> usize;

        #[cfg(test)]
        pub(super) fn slh_dsa_sha2_signature_bytes(set: u32) -> usize;

        pub(super) fn slh_dsa_sha2_keygen(
            set: u32,
            seeds: *const u8, seeds_bytes: usize,
            signing_key: *mut u8, signing_key_bytes: usize,
            verifying_key: *mut u8, verifying_key_bytes: usize,
        ) -> Status;

        pub(super) fn slh_dsa_sha2_public(
            set: u32,
            signing_key: *const u8, signing_key_bytes: usize,
            verifying_key: *mut u8, verifying_key_bytes: usize,
        ) -> Status;

        pub(super) fn slh_dsa_sha2_check_key(
            set: u32,
            signing_key: *const u8, signing_key_bytes: usize,
        ) -> Status;

        pub(super) fn slh_dsa_sha2_sign(
            set: u32, mode: u32,
            signing_key: *const u8, signing_key_bytes: usize,
            message: *const u8, message_bytes: usize,
            context: *const u8, context_bytes: usize,
            randomizer: *const u8, randomizer_bytes: usize,
            signature: *mut u8, signature_bytes: usize,
        ) -> Status;

        pub(super) fn slh_dsa_sha2_sign_deterministic(
            set: u32, mode: u32,
            signing_key: *const u8, signing_key_bytes: usize,
            message: *const u8, message_bytes: usize,
            context: *const u8, context_bytes: usize,
            signature: *mut u8, signature_bytes: usize,
        ) -> Status;

        pub(super) fn slh_dsa_sha2_verify(
            set: u32, mode: u32,
            verifying_key: *const u8, verifying_key_bytes: usize,
            message: *const u8, message_bytes: usize,
            context: *const u8, context_bytes: usize,
            signature: *const u8, signature_bytes: usize,
        ) -> Status;

        pub(super) fn slh_dsa_sha2_verify_begin(
            verifier: *mut RawVerifier,
            set: u32, mode: u32,
            verifying_key: *const u8, verifying_key_bytes: usize,
            context: *const u8, context_bytes: usize,
            signature: *const u8, signature_bytes: usize,
        ) -> Status;

        pub(super) fn slh_dsa_sha2_verify_update(
            verifier: *mut RawVerifier,
            piece: *const u8, piece_bytes: usize,
        ) -> Status;

        pub(super) fn slh_dsa_sha2_verify_finish(
            verifier: *mut RawVerifier,
            signature: *const u8, signature_bytes: usize,
        ) -> Status;

        pub(super) fn slh_dsa_sha2_sign_begin(
            signer: *mut RawSigner,
            set: u32,
            signing_key: *const u8, signing_key_bytes: usize,
            context: *const u8, context_bytes: usize,
            randomizer: *const u8, randomizer_bytes: usize,
        ) -> Status;

        pub(super) fn slh_dsa_sha2_sign_begin_deterministic(
            signer: *mut RawSigner,
            set: u32,
            signing_key: *const u8, signing_key_bytes: usize,
            context: *const u8, context_bytes: usize,
        ) -> Status;

        pub(super) fn slh_dsa_sha2_sign_update(
            signer: *mut RawSigner,
            piece: *const u8, piece_bytes: usize,
        ) -> Status;

        pub(super) fn slh_dsa_sha2_sign_again(
            signer: *mut RawSigner,
            context: *const u8, context_bytes: usize,
        ) -> Status;

        pub(super) fn slh_dsa_sha2_sign_finish(
            signer: *mut RawSigner,
            signing_key: *const u8, signing_key_bytes: usize,
            signature: *mut u8, signature_bytes: usize,
        ) -> Status;

        pub(super) fn slh_dsa_sha2_sign_digest(
            set: u32, mode: u32,
            signing_key: *const u8, signing_key_bytes: usize,
            digest: *const u8, digest_bytes: usize,
            context: *const u8, context_bytes: usize,
            randomizer: *const u8, randomizer_bytes: usize,
            signature: *mut u8, signature_bytes: usize,
        ) -> Status;

        pub(super) fn slh_dsa_sha2_sign_digest_deterministic(
            set: u32, mode: u32,
            signing_key: *const u8, signing_key_bytes: usize,
            digest: *const u8, digest_bytes: usize,
            context: *const u8, context_bytes: usize,
            signature: *mut u8, signature_bytes: usize,
        ) -> Status;

        pub(super) fn slh_dsa_sha2_verify_digest(
            set: u32, mode: u32,
            verifying_key: *const u8, verifying_key_bytes: usize,
            digest: *const u8, digest_bytes: usize,
            context: *const u8, context_bytes: usize,
            signature: *const u8, signature_bytes: usize,
        ) -> Status;

        pub(super) fn slh_dsa_sha2_audit(
            set: u32, mode: u32,
            signing_key: *const u8, signing_key_bytes: usize,
            message: *const u8, message_bytes: usize,
            context: *const u8, context_bytes: usize,
            signature: *const u8, signature_bytes: usize,
            evidence: *mut RawEvidence,
        ) -> Status;

        pub(super) fn slh_dsa_sha2_check_evidence(
            set: u32, mode: u32,
            signing_key: *const u8, signing_key_bytes: usize,
            message: *const u8, message_bytes: usize,
            context: *const u8, context_bytes: usize,
            signature: *const u8, signature_bytes: usize,
            evidence: *const RawEvidence,
        ) -> Status;
    }
}

/// Makes a call. A shared slice becomes an address and a length, one that is written the same.
macro_rules! call {
    ($name:ident, $($number:expr),*; $($read:expr),*; $($write:expr),*; $($more:expr),*) => {
        // Safety: these are borrowed slices, and the module's page says why that is enough.
        unsafe {
            c::$name(
                $($number,)*
                $($read.as_ptr(), $read.len(),)*
                $($write.as_mut_ptr(), $write.len(),)*
                $($more,)*
            )
        }
    };
}

pub(crate) fn keygen(
    set: u32,
    seeds: &[u8],
    signing_key: &mut [u8],
    verifying_key: &mut [u8],
) -> Status {
    call!(slh_dsa_sha2_keygen, set; seeds; signing_key, verifying_key;)
}

pub(crate) fn public(set: u32, signing_key: &[u8], verifying_key: &mut [u8]) -> Status {
    call!(slh_dsa_sha2_public, set; signing_key; verifying_key;)
}

pub(crate) fn check_key(set: u32, signing_key: &[u8]) -> Status {
    call!(slh_dsa_sha2_check_key, set; signing_key;;)
}

/// Signs a message, by the deterministic variant without a randomizer.
pub(crate) fn sign(job: &Job<'_>, randomizer: Option<&[u8]>, signature: &mut [u8]) -> Status {
    let Job { set, mode, key, signed, context } = *job;
    match randomizer {
        Some(randomizer) => {
            call!(slh_dsa_sha2_sign, set, mode; key, signed, context, randomizer; signature;)
        }
        None => {
            call!(slh_dsa_sha2_sign_deterministic, set, mode; key, signed, context; signature;)
        }
    }
}

/// Signs a digest, by the deterministic variant without a randomizer.
pub(crate) fn sign_digest(
    job: &Job<'_>,
    randomizer: Option<&[u8]>,
    signature: &mut [u8],
) -> Status {
    let Job { set, mode, key, signed, context } = *job;
    match randomizer {
        Some(randomizer) => {
            call!(slh_dsa_sha2_sign_digest, set, mode; key, signed, context, randomizer; signature;)
        }
        None => call!(
            slh_dsa_sha2_sign_digest_deterministic, set, mode; key, signed, context; signature;
        ),
    }
}

pub(crate) fn verify(job: &Job<'_>, signature: &[u8]) -> Status {
    let Job { set, mode, key, signed, context } = *job;
    call!(slh_dsa_sha2_verify, set, mode; key, signed, context, signature;;)
}

pub(crate) fn verify_digest(job: &Job<'_>, signature: &[u8]) -> Status {
    let Job { set, mode, key, signed, context } = *job;
    call!(slh_dsa_sha2_verify_digest, set, mode; key, signed, context, signature;;)
}

/// Begins to verify; the job's message is to come, and isn't looked at.
pub(crate) fn verify_begin(verifier: &mut RawVerifier, job: &Job<'_>, signature: &[u8]) -> Status {
    let Job { set, mode, key, context, .. } = *job;
    call!(slh_dsa_sha2_verify_begin, verifier, set, mode; key, context, signature;;)
}

pub(crate) fn verify_update(verifier: &mut RawVerifier, piece: &[u8]) -> Status {
    call!(slh_dsa_sha2_verify_update, verifier; piece;;)
}

pub(crate) fn verify_finish(verifier: &mut RawVerifier, signature: &[u8]) -> Status {
    call!(slh_dsa_sha2_verify_finish, verifier; signature;;)
}

/// Begins to sign, by the deterministic variant without a randomizer; the job's message and mode
/// aren't looked at.
pub(crate) fn sign_begin(
    signer: &mut RawSigner,
    job: &Job<'_>,
    randomizer: Option<&[u8]>,
) -> Status {
    let Job { set, key, context, .. } = *job;
    match randomizer {
        Some(randomizer) => {
            call!(slh_dsa_sha2_sign_begin, signer, set; key, context, randomizer;;)
        }
        None => call!(slh_dsa_sha2_sign_begin_deterministic, signer, set; key, context;;),
    }
}

pub(crate) fn sign_update(signer: &mut RawSigner, piece: &[u8]) -> Status {
    call!(slh_dsa_sha2_sign_update, signer; piece;;)
}

pub(crate) fn sign_again(signer: &mut RawSigner, context: &[u8]) -> Status {
    call!(slh_dsa_sha2_sign_again, signer; context;;)
}

pub(crate) fn sign_finish(signer: &mut RawSigner, key: &[u8], signature: &mut [u8]) -> Status {
    call!(slh_dsa_sha2_sign_finish, signer; key; signature;)
}

pub(crate) fn audit(job: &Job<'_>, signature: &[u8], evidence: &mut RawEvidence) -> Status {
    let Job { set, mode, key, signed, context } = *job;
    call!(slh_dsa_sha2_audit, set, mode; key, signed, context, signature;; evidence)
}

pub(crate) fn check_evidence(job: &Job<'_>, signature: &[u8], evidence: &RawEvidence) -> Status {
    let Job { set, mode, key, signed, context } = *job;
    call!(slh_dsa_sha2_check_evidence, set, mode; key, signed, context, signature;; evidence)
}

/// Clears bytes by writes that no compiler leaves out.
pub(crate) fn clear(bytes: &mut [u8]) {
    for byte in bytes {
        // Safety: a byte that is borrowed alone may be written.
        unsafe { ptr::write_volatile(byte, 0) };
    }
    compiler_fence(Ordering::SeqCst);
}

#[cfg(test)]
mod tests {
    use super::*;
    use crate::set::*;
    use crate::Error;

    fn has_the_sizes_of_the_library<P: ParameterSet>() {
        // Safety: a number is handed over, and one comes back.
        let (n, signature) =
            unsafe { (c::slh_dsa_sha2_n(P::NUMBER), c::slh_dsa_sha2_signature_bytes(P::NUMBER)) };
        assert_eq!(n, P::N, "{}", P::NAME);
        assert_eq!(signature, P::SignatureBytes::zeros().as_ref().len(), "{}", P::NAME);
        assert_eq!(4 * n, P::SigningKeyBytes::zeros().as_ref().len(), "{}", P::NAME);
        assert_eq!(2 * n, P::VerifyingKeyBytes::zeros().as_ref().len(), "{}", P::NAME);
    }

    #[test]
    fn sets_have_the_sizes_of_the_library() {
        has_the_sizes_of_the_library::<Sha2_128s>();
        has_the_sizes_of_the_library::<Sha2_128f>();
        has_the_sizes_of_the_library::<Sha2_192s>();
        has_the_sizes_of_the_library::<Sha2_192f>();
        has_the_sizes_of_the_library::<Sha2_256s>();
        has_the_sizes_of_the_library::<Sha2_256f>();
    }

    /// A job whose numbers no type gives, on buffers of the sizes of 128f.
    fn verified(set: u32, mode: u32) -> Result<(), Error> {
        let job = Job { set, mode, key: &[0; 32], signed: b"m", context: b"" };
        Error::of(verify(&job, &[0; 17088]))
    }

    #[test]
    fn numbers_that_no_type_has_are_refused() {
        assert_eq!(verified(2, 0), Err(Error::Invalid));
        for set in [0, 7, u32::MAX] {
            assert_eq!(verified(set, 0), Err(Error::UnknownSet));
            let written = &mut [0; 32];
            assert_eq!(Error::of(public(set, &[1; 64], written)), Err(Error::UnknownSet));
            assert_eq!(written, &[0; 32]);
        }
        for mode in [3, u32::MAX] {
            assert_eq!(verified(2, mode), Err(Error::UnknownMode));
        }
        let job = Job { set: 2, mode: 0, key: &[0; 64], signed: b"m", context: b"" };
        for kind in [0, 7, u32::MAX] {
            let evidence = RawEvidence { kind, ..RawEvidence::default() };
            let status = check_evidence(&job, &[0; 17088], &evidence);
            assert_eq!(Error::of(status), Err(Error::UnknownEvidence));
        }
    }

    #[test]
    fn buffers_of_other_lengths_are_refused() {
        let (mut key, mut public_key) = ([0; 64], [0; 32]);
        for seeds in [&[0; 47][..], &[0; 49], &[]] {
            let status = keygen(2, seeds, &mut key, &mut public_key);
            assert_eq!(Error::of(status), Err(Error::Length));
        }
        assert_eq!((key, public_key), ([0; 64], [0; 32]));
        let status = keygen(2, &[0; 48], &mut key[1..], &mut public_key);
        assert_eq!(Error::of(status), Err(Error::Length));
        assert_eq!(Error::of(check_key(2, &[0; 65])), Err(Error::Length));
        let job = Job { set: 2, mode: 0, key: &[0; 64], signed: b"m", context: b"" };
        assert_eq!(Error::of(sign(&job, None, &mut [0; 17087])), Err(Error::Length));
    }
}
