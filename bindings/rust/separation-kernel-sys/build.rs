//! Finds libboundary.a: in the folder SEPARATION_KERNEL_LIB_DIR, else in the repository's target/staticlib.

use std::path::{Path, PathBuf};

const VARIABLE: &str = "SEPARATION_KERNEL_LIB_DIR";

fn main() {
    println!("cargo:rerun-if-env-changed={VARIABLE}");
    println!("cargo:rerun-if-changed=build.rs");
    if std::env::var_os("CARGO_FEATURE_LINK").is_none() {
        return;
    }
    match folder() {
        Ok(folder) => {
            // A new archive runs this again, and what is linked with it is linked anew.
            println!("cargo:rerun-if-changed={}", folder.join("libboundary.a").display());
            println!("cargo:rustc-link-search=native={}", folder.display());
            // Not bundled into the Rust library, so that link-time optimisation does not look into it.
            println!("cargo:rustc-link-lib=static:-bundle=boundary");
        }
        Err(why) => {
            eprintln!("error: {why}");
            std::process::exit(1);
        }
    }
}

/// The folder of the archive, or why there is none.
fn folder() -> Result<PathBuf, String> {
    let given = std::env::var_os(VARIABLE).map(PathBuf::from);
    let folder = match &given {
        // This program runs in the crate's folder, and not where cargo was called.
        Some(given) if given.is_relative() => return Err(format!("{VARIABLE} is {}: it must be a path from the root on", given.display())),
        Some(given) => given.clone(),
        None => repository()?.join("target/staticlib"),
    };
    let archive = folder.join("libboundary.a");
    match archive.is_file() {
        true => Ok(folder),
        false => Err(format!(
            "there is no {}\nRun `tools/build boundary` in the repository: it writes target/staticlib/libboundary.a.\n\
             An archive in another folder is found by the variable {VARIABLE}, which {}.",
            archive.display(),
            if given.is_some() { "is set" } else { "is not set" }
        )),
    }
}

/// The repository that this crate stands in, as bindings/rust/separation-kernel-sys.
fn repository() -> Result<PathBuf, String> {
    let here = std::env::var("CARGO_MANIFEST_DIR").map_err(|why| format!("CARGO_MANIFEST_DIR: {why}"))?;
    let root = Path::new(&here).ancestors().nth(3).map(Path::to_path_buf);
    root.ok_or_else(|| format!("{here} is not three folders below the repository: set {VARIABLE}"))
}
