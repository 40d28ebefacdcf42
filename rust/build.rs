//! Finds the proved library and links it. It is looked for in the folder that HOKEWHUNI_LIB names,
//! an absolute path; without that in `lib` beside this package's folder, as an installed copy has
//! it, and then where `tools/staticlib` writes it in the repository.

use std::env;
use std::path::{Path, PathBuf};
use std::process::ExitCode;

const LIBRARY: &str = "libhokewhuni.a";

/// From this package's folder.
const FOLDERS: [&str; 2] = ["../lib", "../target/staticlib"];

const WHAT_TO_DO: &str = "run `tools/staticlib` in the repository, or name the folder of \
                          libhokewhuni.a in HOKEWHUNI_LIB";

fn main() -> ExitCode {
    println!("cargo::rerun-if-env-changed=HOKEWHUNI_LIB");
    match check_target().and_then(|()| find()) {
        Ok(folder) => {
            link(&folder);
            ExitCode::SUCCESS
        }
        Err(message) => {
            eprintln!("{message}");
            ExitCode::FAILURE
        }
    }
}

/// The library is machine code of one kind.
fn check_target() -> Result<(), String> {
    let is = |name: &str, value: &str| env::var(name).is_ok_and(|is| is == value);
    if is("CARGO_CFG_TARGET_ARCH", "x86_64") && is("CARGO_CFG_TARGET_OS", "linux") {
        return Ok(());
    }
    let target = env::var("TARGET").unwrap_or_default();
    Err(format!("{LIBRARY} is for x86-64 Linux, not for {target}"))
}

/// The folder with the library. One that is named is the only one.
fn find() -> Result<PathBuf, String> {
    if let Some(folder) = env::var_os("HOKEWHUNI_LIB").map(PathBuf::from) {
        return named(folder);
    }
    let package = PathBuf::from(env::var_os("CARGO_MANIFEST_DIR").unwrap_or_default());
    let mut folders = FOLDERS.iter().map(|folder| package.join(folder));
    let [lib, target] = FOLDERS;
    folders
        .find(|folder| has_library(folder))
        .ok_or_else(|| format!("neither {lib} nor {target} has {LIBRARY}: {WHAT_TO_DO}"))
}

fn named(folder: PathBuf) -> Result<PathBuf, String> {
    let name = folder.display();
    if !folder.is_absolute() {
        return Err(format!(
            "HOKEWHUNI_LIB is \"{name}\", which is no absolute path: {WHAT_TO_DO}"
        ));
    }
    if !has_library(&folder) {
        return Err(format!(
            "HOKEWHUNI_LIB is \"{name}\", which has no {LIBRARY}: {WHAT_TO_DO}"
        ));
    }
    Ok(folder)
}

fn has_library(folder: &Path) -> bool {
    folder.join(LIBRARY).is_file()
}

fn link(folder: &Path) {
    let library = folder.join(LIBRARY);
    println!("cargo::rerun-if-changed={}", library.display());
    println!("cargo::rustc-link-search=native={}", folder.display());
    println!("cargo::rustc-link-lib=static=hokewhuni");
}
