//! C programs, compiled against the header and the static library.

use std::env;
use std::path::PathBuf;
use std::process::Command;

use super::{in_repository, told};
use crate::process::run;

/// The warnings of the compiler, none of which may be given.
const FLAGS: [&str; 5] = ["-std=c11", "-Wall", "-Wextra", "-Wpedantic", "-Werror"];

/// Compiles the program in a C file of the repository. It is put beside the running program.
pub fn compile(source: &str) -> Result<PathBuf, String> {
    let source = in_repository(source);
    let program = told(env::current_exe())?.with_file_name(source.file_stem().unwrap_or_default());
    let mut command = Command::new("cc");
    command
        .args(FLAGS)
        .arg("-I")
        .arg(in_repository("include"))
        .arg(&source)
        .arg(library())
        .arg("-o")
        .arg(&program);
    let ended = run(&mut command, b"").map_err(|error| format!("cc: {error}"))?;
    match ended.status {
        Some(status) if status.success() && ended.errors.is_empty() => Ok(program),
        _ => Err(String::from_utf8_lossy(&ended.errors).into_owned()),
    }
}

/// The static library, from where the Rust crate's build takes it in the repository.
fn library() -> PathBuf {
    let folder = match env::var_os("HOKEWHUNI_LIB") {
        Some(folder) => PathBuf::from(folder),
        None => in_repository("target/staticlib"),
    };
    folder.join("libhokewhuni.a")
}
