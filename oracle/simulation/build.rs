//! Checks the published files and writes `head_lifecycle.rs` anew with one child
//! module after its last byte.

use sha2::{Digest, Sha256};
use std::env;
use std::fs;
use std::path::{Path, PathBuf};

/// The published files under `../published`, with their SHA-256.
const PUBLISHED: [(&str, &str); 5] = [
    (
        "sim/storage_memo.rs",
        "4b40239843f73332a880fe5926d9d9ec7ab6e8a56dbff908427fcbe9f99b72c6",
    ),
    (
        "sim/evm2/bal_prefetch.rs",
        "ad12f76b7488d3cfcb1024f30b1a0590a9d39af634f440328afc3ee2ff057d40",
    ),
    (
        "sim/evm2/read_hub.rs",
        "39ad9a900f3945b1a9c6cbc7a592e4c31f6f13b36bd3d3aaa836f3aab526652b",
    ),
    (
        "sim/evm2/delta_snapshot.rs",
        "c65fb4c01f6fdb6bb5fda4b24279f08fbb978b19ecef1c61184722be6d3265bd",
    ),
    (
        "sim/evm2/head_lifecycle.rs",
        "bc4fbc32d6f01eb400cc5ab91011298eaae24bea89c6a03a12b1030b1c4ea826",
    ),
];

/// The file that gets a child module.
const EXTENDED: &str = "sim/evm2/head_lifecycle.rs";

/// A problem is told to cargo, which prints it on one line and builds no further.
fn main() {
    if let Err(problem) = run() {
        println!("cargo::error={problem}");
    }
}

fn run() -> Result<(), String> {
    let package = folder("CARGO_MANIFEST_DIR")?;
    println!("cargo::rerun-if-changed=build.rs");
    for (name, checksum) in PUBLISHED {
        let bytes = checked(&package.join("../published"), name, checksum)?;
        if name == EXTENDED {
            write_extended(&bytes, &package, &folder("OUT_DIR")?)?;
        }
    }
    Ok(())
}

/// The bytes of one published file, if they are the published ones.
fn checked(published: &Path, name: &str, checksum: &str) -> Result<Vec<u8>, String> {
    let path = published.join(name);
    println!("cargo::rerun-if-changed={}", path.display());
    let restore = format!("restore it: in oracle/, git checkout -- published/{name}");
    let bytes = fs::read(&path)
        .map_err(|error| format!("published/{name} cannot be read ({error}); {restore}"))?;
    if hex(&Sha256::digest(&bytes)) == checksum {
        Ok(bytes)
    } else {
        Err(format!(
            "published/{name} is not the published file, its SHA-256 differs; {restore}"
        ))
    }
}

/// `head_lifecycle.rs` for the compiler: the published bytes, then a child
/// module, which alone can see the file's private items. The module is named by
/// its whole path, since a relative one would start at this build's folder.
fn write_extended(bytes: &[u8], package: &Path, out: &Path) -> Result<(), String> {
    let probe = package.join("src/probe.rs");
    let file = out.join("head_lifecycle.rs");
    let mut extended = bytes.to_vec();
    extended.extend_from_slice(format!("#[path = {probe:?}]\npub mod probe;\n").as_bytes());
    assert!(extended.starts_with(bytes));
    write(&file, &extended)?;
    let module = format!("#[path = {file:?}]\npub mod head_lifecycle;\n");
    write(&out.join("head_lifecycle_module.rs"), module.as_bytes())
}

fn folder(variable: &str) -> Result<PathBuf, String> {
    let path = env::var_os(variable).ok_or_else(|| format!("cargo did not set {variable}"))?;
    Ok(PathBuf::from(path))
}

fn write(path: &Path, bytes: &[u8]) -> Result<(), String> {
    fs::write(path, bytes).map_err(|error| format!("{}: {error}", path.display()))
}

fn hex(bytes: &[u8]) -> String {
    bytes.iter().map(|byte| format!("{byte:02x}")).collect()
}
