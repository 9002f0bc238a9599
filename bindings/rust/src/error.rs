//! What the calls answer where it isn't what was asked for.

use std::fmt;

use crate::evidence::Evidence;
use crate::ffi::Status;

/// The status with which an audit writes evidence.
const FOREIGN: Status = 2;

/// A status of the library that isn't `SLH_DSA_OK`, by its name in `slh_dsa.h`.
#[derive(Clone, Copy, Debug, PartialEq, Eq, Hash)]
#[non_exhaustive]
pub enum Error {
    /// The signature isn't one of this message, context and mode under this key.
    Invalid,
    /// [`SigningKey::audit`](crate::SigningKey::audit): accepted, but not what the key makes.
    Foreign(Evidence),
    /// [`SigningKey::check_evidence`](crate::SigningKey::check_evidence): it doesn't show.
    NotShown,
    /// The root of a signing key isn't that of its seeds.
    KeyMismatch,
    /// Seeds, a key, a digest or a signature have a wrong length.
    Length,
    /// A context has more than 255 bytes.
    ContextTooLong,
    /// A randomizer doesn't have n bytes.
    RandomizerLength,
    /// A message has more than 2^60 bytes.
    MessageTooLong,
    /// The library has no set of this number. No call of this crate gives one.
    UnknownSet,
    /// The library has no mode of this number. No call of this crate gives one.
    UnknownMode,
    /// No evidence has this kind. No call of this crate gives one.
    UnknownEvidence,
    /// The state isn't one of this call, key or signature. No call of this crate gives one.
    State,
    /// [`SecondPass::finish`](crate::SecondPass::finish): the second pass was over other bytes than
    /// the first.
    Changed,
    /// The system gave no random bytes. No status of the library.
    NoRandom,
    /// A status that this crate doesn't know.
    Unknown(u32),
}

impl Error {
    /// The number that `slh_dsa.h` has, none where it isn't an error of the library.
    #[must_use]
    pub fn status(self) -> Option<u32> {
        match self {
            Error::Invalid => Some(1),
            Error::Foreign(_) => Some(FOREIGN),
            Error::NotShown => Some(3),
            Error::KeyMismatch => Some(4),
            Error::Length => Some(5),
            Error::ContextTooLong => Some(6),
            Error::RandomizerLength => Some(7),
            Error::MessageTooLong => Some(8),
            Error::UnknownSet => Some(9),
            Error::UnknownMode => Some(10),
            Error::UnknownEvidence => Some(11),
            Error::State => Some(13),
            Error::Changed => Some(21),
            Error::NoRandom => None,
            Error::Unknown(status) => Some(status),
        }
    }

    /// What a status means; `evidence` is what an audit wrote.
    pub(crate) fn of_audit(status: Status, evidence: Option<Evidence>) -> Result<(), Error> {
        match (status, evidence) {
            (FOREIGN, Some(evidence)) => Err(Error::Foreign(evidence)),
            (FOREIGN, None) => Err(Error::UnknownEvidence),
            _ => Error::of(status),
        }
    }

    /// What a status of another call than an audit means.
    pub(crate) fn of(status: Status) -> Result<(), Error> {
        Err(match status {
            0 => return Ok(()),
            1 => Error::Invalid,
            3 => Error::NotShown,
            4 => Error::KeyMismatch,
            5 => Error::Length,
            6 => Error::ContextTooLong,
            7 => Error::RandomizerLength,
            8 => Error::MessageTooLong,
            9 => Error::UnknownSet,
            10 => Error::UnknownMode,
            11 => Error::UnknownEvidence,
            13 => Error::State,
            21 => Error::Changed,
            _ => Error::Unknown(status),
        })
    }
}

impl fmt::Display for Error {
    fn fmt(&self, formatter: &mut fmt::Formatter<'_>) -> fmt::Result {
        formatter.write_str(match self {
            Error::Invalid => "the signature is not one of this message under this key",
            Error::Foreign(_) => "the signature is accepted, but the key does not make it",
            Error::NotShown => "the evidence does not show",
            Error::KeyMismatch => "the root of the key is not that of its seeds",
            Error::Length => "the seeds, a key, the digest or the signature have a wrong length",
            Error::ContextTooLong => "the context has more than 255 bytes",
            Error::RandomizerLength => "the randomizer has a wrong length",
            Error::MessageTooLong => "the message has more than 2^60 bytes",
            Error::UnknownSet => "no such parameter set",
            Error::UnknownMode => "no such mode",
            Error::UnknownEvidence => "no such evidence",
            Error::State => "the state is not one of this call, key or signature",
            Error::Changed => "the second pass was over other bytes than the first",
            Error::NoRandom => "the system gave no random bytes",
            Error::Unknown(_) => "no such status",
        })
    }
}

impl std::error::Error for Error {}

#[cfg(test)]
mod tests {
    use super::*;

    /// `slh_dsa.h` and `slh_dsa_inline.h`, as they stand in this repository.
    fn header(name: &str) -> String {
        let include = concat!(env!("CARGO_MANIFEST_DIR"), "/../../crates/slh_dsa_c/include/");
        std::fs::read_to_string(format!("{include}{name}")).expect(name)
    }

    /// The statuses of the header by their names, but those of calls that the crate doesn't have.
    fn statuses() -> Vec<(String, u32)> {
        let text = header("slh_dsa.h");
        let body = text.split("enum slh_dsa_statuses {").nth(1).expect("statuses");
        let body = body.split("};").next().expect("their end");
        let row = |line: &str| {
            let (name, rest) = line.trim().strip_prefix("SLH_DSA_")?.split_once(" = ")?;
            let digits = rest.split(|c: char| !c.is_ascii_digit()).next()?;
            Some((name.to_owned(), digits.parse().ok()?))
        };
        body.lines().filter_map(row).filter(|(_, number)| !(14..21).contains(number)).collect()
    }

    /// The name of a variant as the header writes it.
    fn name_of(error: Error) -> String {
        let text = format!("{error:?}");
        let name = text.split('(').next().expect("a name");
        let mut upper = String::new();
        for (at, letter) in name.chars().enumerate() {
            if at > 0 && letter.is_uppercase() {
                upper.push('_');
            }
            upper.push(letter.to_ascii_uppercase());
        }
        upper
    }

    #[test]
    fn each_status_of_the_header_has_its_variant() {
        let statuses = statuses();
        assert_eq!(statuses.len(), 14);
        assert_eq!(statuses[0], ("OK".to_owned(), 0));
        for (name, number) in &statuses[1..] {
            let error = Error::of_audit(*number, Some(Evidence::ForsRoots)).unwrap_err();
            assert_eq!(error.status(), Some(*number));
            assert_eq!(&name_of(error), name);
        }
        assert_eq!(Error::of(0), Ok(()));
        assert_eq!(Error::of(99), Err(Error::Unknown(99)));
        assert_eq!(Error::Unknown(99).status(), Some(99));
        assert_eq!(Error::of_audit(2, None), Err(Error::UnknownEvidence));
        assert_eq!(Error::NoRandom.status(), None);
    }

    #[test]
    fn texts_are_those_of_the_header() {
        let inline = header("slh_dsa_inline.h");
        let mut looked_at = 0;
        for line in inline.lines() {
            let Some(row) = line.trim().strip_prefix("case SLH_DSA_") else { continue };
            let Some((name, rest)) = row.split_once(": return \"") else { continue };
            let Some((_, number)) = statuses().into_iter().find(|(each, _)| each == name) else {
                continue;
            };
            if number != 0 {
                let error = Error::of_audit(number, Some(Evidence::ForsRoots)).unwrap_err();
                assert_eq!(Some(error.to_string().as_str()), rest.strip_suffix("\";"));
                looked_at += 1;
            }
        }
        assert!(looked_at >= 11, "{looked_at} texts");
        let error: Box<dyn std::error::Error + Send + Sync> = Box::new(Error::Length);
        assert_eq!(error.to_string(), Error::Length.to_string());
    }
}
