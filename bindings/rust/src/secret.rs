//! Bytes that are cleared once nobody has them any more.

use crate::ffi;

/// Secret bytes on the heap, so that who moves them leaves no copy behind.
pub(crate) struct Secret(Box<[u8]>);

impl Secret {
    pub(crate) fn zeros(len: usize) -> Secret {
        Secret(vec![0; len].into_boxed_slice())
    }

    pub(crate) fn copy_of(bytes: &[u8]) -> Secret {
        Secret(bytes.into())
    }

    pub(crate) fn bytes(&self) -> &[u8] {
        &self.0
    }

    pub(crate) fn bytes_mut(&mut self) -> &mut [u8] {
        &mut self.0
    }

    /// Whether the bytes are the same; each of them is looked at.
    pub(crate) fn is_same(&self, other: &Secret) -> bool {
        let pairs = self.0.iter().zip(other.0.iter());
        self.0.len() == other.0.len() && pairs.fold(0, |bits, (a, b)| bits | (a ^ b)) == 0
    }
}

impl Clone for Secret {
    fn clone(&self) -> Secret {
        Secret::copy_of(&self.0)
    }
}

impl Drop for Secret {
    fn drop(&mut self) {
        ffi::clear(&mut self.0);
    }
}

#[cfg(test)]
mod tests {
    use super::*;

    #[test]
    fn bytes_are_cleared() {
        let mut bytes = *b"secret";
        ffi::clear(&mut bytes);
        assert_eq!(bytes, [0; 6]);
        ffi::clear(&mut []);
    }

    #[test]
    fn bytes_are_the_same_or_not() {
        let secret = Secret::copy_of(b"secret");
        assert!(secret.is_same(&secret.clone()));
        for other in [&b"secreT"[..], b"Secret", b"secre", b"secrets", b""] {
            assert!(!secret.is_same(&Secret::copy_of(other)));
        }
    }
}
