//! Finds the proved archive, libhornetpewter.a, and has it linked.
use std::env;
use std::path::{Path, PathBuf};
use std::process::ExitCode;

const ARCHIVE: &str = "libhornetpewter.a";
const VARIABLE: &str = "HORNETPEWTER_LIB_DIR";

/// Where the archive may be: in the folder that the variable names (a relative one counts from this
/// file's), or else beside this file, where tools/dist puts it with the crate, or in the repository's
/// target/dist.
fn folders() -> Vec<PathBuf> {
    let here = PathBuf::from(env::var_os("CARGO_MANIFEST_DIR").unwrap_or_default());
    if let Some(folder) = env::var_os(VARIABLE) {
        return vec![here.join(folder)];
    }
    vec![here.join("lib"), here.join("../../target/dist/lib")]
}

fn link(folder: &Path) {
    println!("cargo::rerun-if-changed={}", folder.join(ARCHIVE).display());
    println!("cargo::rustc-link-search=native={}", folder.display());
    println!("cargo::rustc-link-lib=static=hornetpewter");
}

fn missing(folders: &[PathBuf]) {
    for folder in folders {
        println!("cargo::error=no {ARCHIVE} in {}", folder.display());
    }
    println!(
        "cargo::error=tools/dist, run in hornetpewter's repository, proves it and puts it into target/dist/lib"
    );
    println!("cargo::error={VARIABLE} names another folder that has it");
}

fn main() -> ExitCode {
    println!("cargo::rerun-if-changed=build.rs");
    println!("cargo::rerun-if-env-changed={VARIABLE}");
    let folders = folders();
    let Some(folder) = folders.iter().find(|folder| folder.join(ARCHIVE).is_file()) else {
        missing(&folders);
        return ExitCode::FAILURE;
    };
    link(folder);
    ExitCode::SUCCESS
}
