//! Links the archive that the crate `temsroi` is built into.

use std::env;
use std::fs;
use std::path::PathBuf;

/// Names the archive, where it is not in its usual place.
const VARIABLE: &str = "TEMSROI_ARCHIVE";

/// Where the kit puts the archive, seen from this package.
const USUAL: &str = "../crates/temsroi/out/libtemsroi.a";

/// What to do where the archive is missing.
const ADVICE: &str = "in the repository's top folder run (cd crates/temsroi && rt lib), \
                      on a machine that has the Rattle kit, or set TEMSROI_ARCHIVE to the \
                      absolute path of a libtemsroi.a";

/// A problem is told to cargo, which prints each of its lines and builds no further.
fn main() {
    if let Err(problem) = run() {
        for line in problem.lines() {
            println!("cargo::error={line}");
        }
    }
}

fn run() -> Result<(), String> {
    println!("cargo::rerun-if-changed=build.rs");
    println!("cargo::rerun-if-env-changed={VARIABLE}");
    let [machine, system] = ["CARGO_CFG_TARGET_ARCH", "CARGO_CFG_TARGET_OS"]
        .map(|variable| env::var(variable).unwrap_or_default());
    if (machine.as_str(), system.as_str()) != ("x86_64", "linux") {
        return Err(format!(
            "the archive is for x86_64 linux, and this build is for {machine} {system}"
        ));
    }
    let named = env::var_os(VARIABLE).filter(|named| !named.is_empty());
    let archive = folder("CARGO_MANIFEST_DIR")?.join(named.unwrap_or(USUAL.into()));
    println!("cargo::rerun-if-changed={}", archive.display());
    let bytes = fs::read(&archive).map_err(|error| {
        let archive = archive.display();
        format!("the archive {archive} cannot be read: {error}\n{ADVICE}")
    })?;
    // A copy under this name, so that the file may have any name and no other library that lies
    // beside it is found.
    let output = folder("OUT_DIR")?;
    fs::write(output.join("libtemsroi.a"), bytes)
        .map_err(|error| format!("{}: {error}", output.display()))?;
    println!("cargo::rustc-link-search=native={}", output.display());
    println!("cargo::rustc-link-lib=static=temsroi");
    Ok(())
}

/// A folder that cargo names in a variable.
fn folder(variable: &str) -> Result<PathBuf, String> {
    let named = env::var_os(variable).ok_or_else(|| format!("{variable} is not set: run cargo"))?;
    Ok(PathBuf::from(named))
}
