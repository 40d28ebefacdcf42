//! Folders for a test, which are gone after it.

use std::path::{Path, PathBuf};
use std::process::Command;
use std::{env, fs, process};

use super::told;

pub struct Folder {
    path: PathBuf,
}

impl Folder {
    /// A new folder, with no file in it.
    pub fn new(name: &str) -> Result<Self, String> {
        let name = format!("hokewhuni-{name}-{}", process::id());
        let path = env::temp_dir().join(name);
        fs::create_dir(&path).map_err(|error| format!("{}: {error}", path.display()))?;
        Ok(Folder { path })
    }

    pub fn path(&self) -> &Path {
        &self.path
    }
}

impl Drop for Folder {
    fn drop(&mut self) {
        // What is left behind does no harm.
        let _ = fs::remove_dir_all(&self.path);
    }
}

/// Copies a file that is to be run. A process of its own writes it: what another thread starts just
/// then would have a file of ours still open for writing, and such a file cannot be run.
pub fn copy_executable(from: &Path, to: &Path) -> Result<(), String> {
    let mut install = Command::new("install");
    let copied = install.args(["-m", "755"]).arg(from).arg(to).status();
    match told(copied)? {
        status if status.success() => Ok(()),
        status => Err(format!("{}: {status}", to.display())),
    }
}
