//! Random bytes of the system.

use std::fs::File;
use std::io::Read;

use crate::error::Error;

/// Fills bytes from `/dev/urandom`. Where that fails, part of them may have been written.
pub(crate) fn fill(bytes: &mut [u8]) -> Result<(), Error> {
    File::open("/dev/urandom")
        .and_then(|mut device| device.read_exact(bytes))
        .map_err(|_| Error::NoRandom)
}
