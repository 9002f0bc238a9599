//! What is freed has no bytes of a secret: an allocator looks at each block before it is freed.

use std::alloc::{GlobalAlloc, Layout, System};
use std::slice;
use std::sync::atomic::{AtomicUsize, Ordering};

use slh_dsa_verified::{Error, FirstPass, Sha2_128f, SigningKey};

/// The secret seed and the PRF key of the key that is made.
const SECRETS: [[u8; 16]; 2] = [*b"a secret seed 16", *b"a PRF key of 16."];

static FOUND: AtomicUsize = AtomicUsize::new(0);

/// The system's allocator, which counts the freed blocks that have a secret.
struct Looking;

// Safety: each call is handed on to the system's allocator as it is.
unsafe impl GlobalAlloc for Looking {
    unsafe fn alloc(&self, layout: Layout) -> *mut u8 {
        System.alloc_zeroed(layout)
    }

    unsafe fn dealloc(&self, block: *mut u8, layout: Layout) {
        // Safety: the block is still its owner's, and was initialized when it was made.
        let bytes = slice::from_raw_parts(block, layout.size());
        if SECRETS.iter().any(|secret| bytes.windows(16).any(|window| window == secret)) {
            FOUND.fetch_add(1, Ordering::SeqCst);
        }
        System.dealloc(block, layout);
    }
}

#[global_allocator]
static ALLOCATOR: Looking = Looking;

/// How many blocks with a secret are freed meanwhile.
fn found_in(job: impl FnOnce()) -> usize {
    let before = FOUND.load(Ordering::SeqCst);
    job();
    FOUND.load(Ordering::SeqCst) - before
}

fn key() -> SigningKey<Sha2_128f> {
    SigningKey::from_seeds(&SECRETS[0], &SECRETS[1], &[3; 16]).expect("a key")
}

#[test]
fn keys_and_seeds_are_cleared() {
    // what nobody clears is found
    assert_eq!(found_in(|| drop(key().to_vec())), 1);
    assert_eq!(found_in(|| drop(SECRETS[1].to_vec())), 1);

    assert_eq!(found_in(|| drop(key())), 0);
    assert_eq!(found_in(|| drop(key().clone())), 0);
    assert_eq!(found_in(|| drop(Box::new(key()))), 0);
    let drawn = |bytes: &mut [u8]| bytes[..32].copy_from_slice(&SECRETS.concat());
    // `concat` is the one block of these that isn't the crate's
    assert_eq!(found_in(|| drop(SigningKey::<Sha2_128f>::new(drawn))), 1);
    let read = || SigningKey::<Sha2_128f>::try_from(key().to_bytes().as_slice());
    assert_eq!(found_in(|| drop(read())), 0);
    assert_eq!(found_in(|| drop(key().try_sign_with_context(b"m", b"", None))), 0);
    let begun = || assert!(key().sign_pieces(b"", None).is_ok());
    assert_eq!(found_in(begun), 0);
    let turned = || assert!(key().sign_pieces(b"", None).and_then(FirstPass::again).is_ok());
    assert_eq!(found_in(turned), 0);
    let refused = || key().try_sign_with_context(b"m", &SECRETS[0].repeat(16), None);
    assert_eq!(found_in(|| assert_eq!(refused().err(), Some(Error::ContextTooLong))), 1);
}
