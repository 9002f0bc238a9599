//! The crate's declarations are those of the header, and its version is one.

use std::collections::BTreeMap;

const HEADER: &str = include_str!("../../../crates/slh_dsa_c/include/slh_dsa.h");
const OURS: &str = include_str!("../src/ffi.rs");

/// The parameters of each function whose declaration begins like this, as the text has them.
fn declarations<'a>(text: &'a str, begin: &str) -> BTreeMap<&'a str, Vec<&'a str>> {
    let declared = text.split(begin).skip(1).filter_map(|rest| {
        let (name, rest) = rest.split_once('(')?;
        let (parameters, _) = rest.split_once(')')?;
        let each = parameters.split(',').map(str::trim).filter(|one| !one.is_empty());
        Some((name, each.collect()))
    });
    declared.collect()
}

/// A parameter of C as Rust has it.
fn in_rust(parameter: &str) -> String {
    let (kind, name) = parameter.rsplit_once(' ').expect("a type and a name");
    let kind = match (kind, name.starts_with('*')) {
        ("slh_dsa_set" | "slh_dsa_mode", false) => "u32",
        ("size_t", false) => "usize",
        ("const uint8_t", true) => "*const u8",
        ("uint8_t", true) => "*mut u8",
        ("slh_dsa_verifier", true) => "*mut RawVerifier",
        ("slh_dsa_signer", true) => "*mut RawSigner",
        ("slh_dsa_evidence", true) => "*mut RawEvidence",
        ("const slh_dsa_evidence", true) => "*const RawEvidence",
        _ => panic!("another parameter: {parameter}"),
    };
    format!("{}: {kind}", name.trim_start_matches('*'))
}

#[test]
fn functions_have_the_parameters_of_the_header() {
    let ours = declarations(OURS, "pub(super) fn slh_dsa_sha2_");
    let mut theirs = declarations(HEADER, "slh_dsa_status slh_dsa_sha2_");
    theirs.extend(declarations(HEADER, "size_t slh_dsa_sha2_"));
    assert!(ours.len() >= 21, "{} declarations", ours.len());
    for (name, parameters) in ours {
        let theirs = theirs.get(name).unwrap_or_else(|| panic!("the header has no {name}"));
        let wanted: Vec<String> = theirs.iter().map(|one| in_rust(one)).collect();
        assert_eq!(parameters, wanted, "{name}");
    }
}

#[test]
fn structures_have_the_sizes_of_the_header() {
    let fields = HEADER.split("typedef struct slh_dsa_evidence {").nth(1).expect("evidence");
    let fields = fields.split('}').next().expect("its end");
    let names: Vec<&str> =
        fields.lines().filter_map(|line| line.trim().strip_prefix("uint32_t ")).collect();
    assert_eq!(names, ["kind;", "layer;", "index;", "level;"]);
    for name in names {
        assert!(OURS.contains(&format!("pub(crate) {}: u32,", name.trim_end_matches(';'))));
    }
    for (theirs, ours) in [("slh_dsa_verifier", "RawVerifier"), ("slh_dsa_signer", "RawSigner")] {
        let words = |text: &str, begin: &str| {
            let rest = text.split(begin).nth(1).expect("a state").trim_start().to_owned();
            rest.split(|c: char| !c.is_ascii_digit()).next().map(str::to_owned)
        };
        let theirs = words(HEADER, &format!("typedef struct {theirs} {{\n    uint64_t words["));
        assert_eq!(words(OURS, &format!("struct {ours} {{\n    words: [u64;")), theirs);
    }
}

#[test]
fn the_version_is_that_of_the_header() {
    let version = env!("CARGO_PKG_VERSION");
    assert!(HEADER.contains(&format!("#define SLH_DSA_VERSION \"{version}\"\n")));
    let other = include_str!("../with_signature/Cargo.toml");
    assert!(other.contains(&format!("\nversion = \"{version}\"\n")));
}
