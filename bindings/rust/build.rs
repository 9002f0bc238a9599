//! Finds the library for C, and refuses one of another interface.
//!
//! `SLH_DSA_DIR` is the whole path of a folder that has `libslh_dsa.a` or `libslh_dsa.so`, as
//! `examples/c/build` makes it. Where it isn't set, `pkg-config` (`PKG_CONFIG` names another) finds
//! what is installed. The archive is linked where both are there.

use std::path::{Path, PathBuf};
use std::process::{exit, Command};
use std::{env, fs};

const NAME: &str = "slh_dsa";

/// A folder that has the library, and the version that is told of it, if any is.
struct Found {
    folder: PathBuf,
    version: Option<String>,
}

/// The version that a header has.
fn version_of(header: &str) -> Option<String> {
    let rest = header.split("#define SLH_DSA_VERSION \"").nth(1)?;
    rest.split('"').next().map(str::to_owned)
}

fn in_folder(folder: PathBuf) -> Result<Found, String> {
    if !folder.is_absolute() {
        return Err(format!("SLH_DSA_DIR isn't a whole path: {}", folder.display()));
    }
    let header = folder.join("slh_dsa.h");
    println!("cargo:rerun-if-changed={}", header.display());
    let version = fs::read_to_string(header).ok().as_deref().and_then(version_of);
    Ok(Found { folder, version })
}

/// What `pkg-config` prints.
fn asked(option: &str) -> Result<String, String> {
    let program = env::var_os("PKG_CONFIG").unwrap_or_else(|| "pkg-config".into());
    let output = Command::new(&program)
        .args(["--print-errors", option, NAME])
        .output()
        .map_err(|error| format!("{} doesn't run: {error}", program.to_string_lossy()))?;
    if !output.status.success() {
        return Err(String::from_utf8_lossy(&output.stderr).trim().to_owned());
    }
    Ok(String::from_utf8_lossy(&output.stdout).trim().to_owned())
}

fn installed() -> Result<Found, String> {
    let folder = PathBuf::from(asked("--variable=libdir")?);
    let version = Some(asked("--modversion")?);
    Ok(Found { folder, version })
}

/// What of a version has to be the same: two numbers while the first is 0.
fn interface_of(version: &str) -> &str {
    let count = if version.starts_with("0.") { 2 } else { 1 };
    let end = version.match_indices('.').nth(count - 1).map_or(version.len(), |(at, _)| at);
    &version[..end]
}

/// How the library of a folder is linked.
fn kind_in(folder: &Path) -> Result<&'static str, String> {
    let has = |file: &str| {
        let path = folder.join(file);
        println!("cargo:rerun-if-changed={}", path.display());
        path.exists()
    };
    let (archive, object) = (has("libslh_dsa.a"), has("libslh_dsa.so"));
    match (archive, object) {
        (true, _) => Ok("static"),
        (false, true) => Ok("dylib"),
        (false, false) => {
            Err(format!("{} has neither libslh_dsa.a nor libslh_dsa.so", folder.display()))
        }
    }
}

fn link() -> Result<(), String> {
    let found = match env::var_os("SLH_DSA_DIR") {
        Some(folder) => in_folder(folder.into())?,
        None => installed().map_err(|error| {
            format!("no library for C: SLH_DSA_DIR isn't set, and pkg-config: {error}")
        })?,
    };
    let kind = kind_in(&found.folder)?;
    let own = env!("CARGO_PKG_VERSION");
    match found.version {
        Some(version) if interface_of(&version) != interface_of(own) => {
            return Err(format!("the library is of version {version}, and the crate of {own}"));
        }
        _ => {}
    }
    println!("cargo:rustc-link-search=native={}", found.folder.display());
    println!("cargo:rustc-link-lib={kind}={NAME}");
    Ok(())
}

fn main() {
    for name in ["SLH_DSA_DIR", "PKG_CONFIG", "PKG_CONFIG_PATH"] {
        println!("cargo:rerun-if-env-changed={name}");
    }
    println!("cargo:rerun-if-changed=build.rs");
    if let Err(error) = link() {
        eprintln!("{error}");
        exit(1);
    }
}
