//! Holds the crate to the program: random calls of both, whose answers must be the same.
//!
//! `compare_with_program COUNT [NUMBER]`, with `SLH_PROGRAM` for `slh_cli`. `NUMBER` picks other
//! calls, the same each time.

use std::io::Write;
use std::process::{exit, Command, Stdio};
use std::{env, thread};

use slh_dsa_verified::{
    Error, Evidence, Mode, ParameterSet, Sha2_128f, Sha2_128s, Sha2_192f, Sha2_192s, Sha2_256f,
    Sha2_256s, Signature, SigningKey, VerifyingKey,
};

const MODES: [Mode; 3] = [Mode::Pure, Mode::Sha256, Mode::Sha512];

/// Numbers by xorshift64*, which are no secrets.
struct Chance(u64);

impl Chance {
    fn below(&mut self, bound: usize) -> usize {
        self.0 ^= self.0 >> 12;
        self.0 ^= self.0 << 25;
        self.0 ^= self.0 >> 27;
        let number = self.0.wrapping_mul(0x2545_f491_4f6c_dd1d) >> 33;
        usize::try_from(number).expect("31 bits") % bound
    }

    fn bytes(&mut self, count: usize) -> Vec<u8> {
        (0..count).map(|_| u8::try_from(self.below(256)).expect("a byte")).collect()
    }

    fn mode(&mut self) -> Mode {
        MODES[self.below(3)]
    }

    fn context(&mut self) -> Vec<u8> {
        let count = [0, 0, 1, 20, 254, 255, 256][self.below(7)];
        self.bytes(count)
    }

    /// The data, or now and then other data: a byte less or more, none, or a bit changed.
    fn bent(&mut self, data: &[u8]) -> Vec<u8> {
        let mut data = data.to_vec();
        match self.below(16) {
            0 => drop(data.pop()),
            1 => data.push(0),
            2 => data.clear(),
            3 if !data.is_empty() => {
                let at = self.below(data.len());
                data[at] ^= 1 << self.below(8);
            }
            _ => {}
        }
        data
    }

    fn evidence(&mut self) -> Evidence {
        let mut place = || u32::try_from(self.below(8)).expect("it is small");
        let (layer, index, level) = (place(), place(), place());
        match self.below(6) {
            0 => Evidence::ForsNode { tree: index, height: level },
            1 => Evidence::ForsRoots,
            2 => Evidence::ChainStep { layer, chain: index, step: level },
            3 => Evidence::Leaf { layer },
            4 => Evidence::TreeNode { layer, height: level },
            _ => Evidence::Early { layer, chain: index },
        }
    }
}

fn hex(bytes: &[u8]) -> String {
    if bytes.is_empty() {
        return "-".to_owned();
    }
    bytes.iter().map(|byte| format!("{byte:02x}")).collect()
}

/// The command of a line in a mode.
fn command(verb: &str, mode: Mode) -> String {
    match mode {
        Mode::Pure => verb.to_owned(),
        Mode::Sha256 => format!("{verb}-sha256"),
        Mode::Sha512 => format!("{verb}-sha512"),
    }
}

/// A line, and what the crate answers to its call.
type Compared = (String, Result<String, Error>);

/// A call in a set: a signature that was made, and what it is of.
#[derive(Clone)]
struct Signed {
    mode: Mode,
    context: Vec<u8>,
    message: Vec<u8>,
    signature: Vec<u8>,
}

impl Signed {
    /// The fields of a line behind the set.
    fn line<P: ParameterSet>(&self, verb: &str, key: &[u8]) -> String {
        let fields = [key, &self.context, &self.message, &self.signature].map(hex);
        format!("{} {} {}", P::NAME, command(verb, self.mode), fields.join(" "))
    }

    fn verify<P: ParameterSet>(&self, key: &[u8]) -> Result<String, Error> {
        let key = VerifyingKey::<P>::try_from(key)?;
        let signature = Signature::try_from(self.signature.as_slice())?;
        key.verify_in_mode(self.mode, &self.message, &self.context, &signature)?;
        Ok("accepted".to_owned())
    }

    fn audit<P: ParameterSet>(&self, key: &[u8]) -> Result<String, Error> {
        let key = SigningKey::<P>::try_from(key)?;
        let signature = Signature::try_from(self.signature.as_slice())?;
        match key.audit(self.mode, &self.message, &self.context, &signature) {
            Ok(()) => Ok("genuine".to_owned()),
            Err(Error::Foreign(evidence)) => Ok(format!("foreign {evidence}")),
            Err(error) => Err(error),
        }
    }

    fn check<P: ParameterSet>(&self, key: &[u8], evidence: Evidence) -> Result<String, Error> {
        let key = SigningKey::<P>::try_from(key)?;
        let signature = Signature::try_from(self.signature.as_slice())?;
        let Signed { mode, message, context, .. } = self;
        match key.check_evidence(*mode, message, context, &signature, evidence) {
            Ok(()) => Ok("shown".to_owned()),
            Err(Error::NotShown) => Ok("not shown".to_owned()),
            Err(error) => Err(error),
        }
    }
}

/// Random calls of a set.
struct Calls<P: ParameterSet> {
    key: SigningKey<P>,
    signed: Vec<Signed>,
}

impl<P: ParameterSet> Calls<P> {
    fn keygen(chance: &mut Chance) -> Compared {
        let seeds = [chance.bytes(P::N), chance.bytes(P::N), chance.bytes(P::N)];
        let seeds = seeds.map(|seed| chance.bent(&seed));
        let words: Vec<String> = seeds.iter().map(|seed| hex(seed)).collect();
        let line = format!("{} keygen {}", P::NAME, words.join(" "));
        let made = SigningKey::<P>::from_seeds(&seeds[0], &seeds[1], &seeds[2]);
        let reply = |key: SigningKey<P>| {
            format!("key {} {}", hex(&key.to_vec()), hex(&key.verifying_key().to_vec()))
        };
        (line, made.map(reply))
    }

    fn sign(&mut self, chance: &mut Chance) -> Compared {
        let (mode, context) = (chance.mode(), chance.context());
        let key = chance.bent(&self.key.to_vec());
        let count = chance.below(200);
        let message = chance.bytes(count);
        let counted = chance.bytes(P::N);
        let randomizer = (chance.below(2) == 0).then(|| chance.bent(&counted));
        let word = randomizer.as_deref().map_or("none".to_owned(), hex);
        let fields = [&key, &context, &message].map(|field| hex(field)).join(" ");
        let line = format!("{} {} {fields} {word}", P::NAME, command("sign", mode));
        let made = SigningKey::<P>::try_from(key.as_slice())
            .and_then(|key| key.sign_in_mode(mode, &message, &context, randomizer.as_deref()));
        if let (Ok(made), true) = (&made, key == self.key.to_vec()) {
            self.signed.push(Signed { mode, context, message, signature: made.to_vec() });
        }
        (line, made.map(|signature| format!("sig {}", hex(signature.as_ref()))))
    }

    /// A signature that was made, in which one thing may be another.
    fn taken(&self, chance: &mut Chance) -> Signed {
        let mut taken = self.signed[chance.below(self.signed.len())].clone();
        if chance.below(8) == 0 {
            taken.mode = chance.mode();
        }
        if chance.below(8) == 0 {
            taken.context = chance.context();
        }
        taken.message = chance.bent(&taken.message);
        taken.signature = chance.bent(&taken.signature);
        taken
    }

    fn any(&mut self, chance: &mut Chance) -> Compared {
        if self.signed.is_empty() {
            return self.sign(chance);
        }
        let kind = chance.below(6);
        if kind < 2 {
            return if kind == 0 { Self::keygen(chance) } else { self.sign(chance) };
        }
        let taken = self.taken(chance);
        let public = chance.bent(&self.key.verifying_key().to_vec());
        let secret = chance.bent(&self.key.to_vec());
        match kind {
            2 => (taken.line::<P>("audit", &secret), taken.audit::<P>(&secret)),
            3 => {
                let evidence = chance.evidence();
                let line = format!("{} {evidence}", taken.line::<P>("check", &secret));
                (line, taken.check::<P>(&secret, evidence))
            }
            _ => (taken.line::<P>("verify", &public), taken.verify::<P>(&public)),
        }
    }

    /// So many calls in one set.
    fn compared(count: usize, chance: &mut Chance) -> Vec<Compared> {
        let key = SigningKey::new(|bytes| bytes.copy_from_slice(&chance.bytes(3 * P::N)));
        let mut calls = Calls::<P> { key, signed: Vec::new() };
        (0..count).map(|_| calls.any(chance)).collect()
    }
}

/// The reply of the program.
fn reply(answer: &Result<String, Error>) -> String {
    let word = match answer {
        Ok(reply) => return reply.clone(),
        Err(Error::Invalid) => "invalid",
        Err(Error::KeyMismatch) => "key",
        Err(Error::Length) => "length",
        Err(Error::ContextTooLong) => "context",
        Err(Error::RandomizerLength) => "randomizer",
        Err(Error::MessageTooLong) => "message",
        Err(error) => panic!("no call answers {error:?}"),
    };
    format!("error {word}")
}

/// What the program replies to lines.
fn replies(lines: String) -> String {
    let program = env::var_os("SLH_PROGRAM").expect("SLH_PROGRAM names slh_cli");
    let mut child = Command::new(program)
        .stdin(Stdio::piped())
        .stdout(Stdio::piped())
        .spawn()
        .expect("the program runs");
    let mut input = child.stdin.take().expect("its input");
    let writer = thread::spawn(move || input.write_all(lines.as_bytes()));
    let output = child.wait_with_output().expect("it ends");
    writer.join().expect("no panic").expect("it reads");
    assert!(output.status.success(), "the program: {}", output.status);
    String::from_utf8(output.stdout).expect("replies are text")
}

fn main() {
    let numbers: Vec<u64> =
        env::args().skip(1).map(|word| word.parse().expect("COUNT [NUMBER]")).collect();
    let count = usize::try_from(numbers[0]).expect("a number of calls");
    let chance = &mut Chance(numbers.get(1).unwrap_or(&0) ^ 0x9e37_79b9_7f4a_7c15);
    let each = count.div_ceil(6);
    let compared = [
        Calls::<Sha2_128s>::compared(each, chance),
        Calls::<Sha2_128f>::compared(each, chance),
        Calls::<Sha2_192s>::compared(each, chance),
        Calls::<Sha2_192f>::compared(each, chance),
        Calls::<Sha2_256s>::compared(each, chance),
        Calls::<Sha2_256f>::compared(each, chance),
    ]
    .concat();

    let lines: String = compared.iter().map(|(line, _)| format!("{line}\n")).collect();
    let replied = replies(lines);
    let given: Vec<&str> = replied.lines().collect();
    let wanted: Vec<String> = compared.iter().map(|(_, answer)| reply(answer)).collect();
    if given != wanted {
        let at = given.iter().zip(&wanted).position(|(given, wanted)| given != wanted);
        eprintln!("{} replies to {} calls, and another at {at:?}", given.len(), wanted.len());
        exit(1);
    }
    let refused = compared.iter().filter(|(_, answer)| answer.is_err()).count();
    println!(
        "{} calls, {refused} of them refused: the replies are the crate's answers",
        compared.len()
    );
}
