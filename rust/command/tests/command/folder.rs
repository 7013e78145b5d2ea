//! A folder for the files of one test.

use crate::run::Ran;
use comparison::program::fed;
use std::fs;
use std::path::{Path, PathBuf};
use std::process::{self, Command};
use std::sync::atomic::{AtomicUsize, Ordering};
use std::time::Duration;

/// A folder of its own, which goes away with its files.
pub struct Folder(PathBuf);

impl Folder {
    /// An empty folder.
    pub fn new() -> Self {
        static MADE: AtomicUsize = AtomicUsize::new(0);
        let number = MADE.fetch_add(1, Ordering::Relaxed);
        let name = format!("command-{}-{number}", process::id());
        let path = Path::new(env!("CARGO_TARGET_TMPDIR")).join(name);
        fs::create_dir(&path).expect("a new folder");
        Folder(path)
    }

    /// A folder with files, each with its bytes.
    pub fn with<B: AsRef<[u8]>>(files: &[(&str, B)]) -> Self {
        let folder = Self::new();
        for (name, bytes) in files {
            folder.write(name, bytes);
        }
        folder
    }

    pub fn path(&self) -> &Path {
        &self.0
    }

    /// Writes a file, and the folders in front of its name.
    pub fn write(&self, name: &str, bytes: impl AsRef<[u8]>) {
        let path = self.0.join(name);
        let above = path.parent().expect("a file has a folder");
        fs::create_dir_all(above).expect("a folder");
        fs::write(path, bytes).expect("a new file");
    }

    /// Writes a script. Another process writes it: one that this one has open
    /// for writing is busy, and so it is for what another test starts meanwhile.
    pub fn executable(&self, name: &str, script: impl AsRef<[u8]>) {
        let mut shell = Command::new("/bin/sh");
        shell.args([
            "-c",
            "mkdir -p \"${0%/*}\" && cat >\"$0\" && chmod +x \"$0\"",
        ]);
        shell.arg(self.path().join(name));
        Ran::of(fed(
            &mut shell,
            [script.as_ref()].into_iter(),
            Duration::ZERO,
        ))
        .is(0, "", "");
    }
}

impl Drop for Folder {
    fn drop(&mut self) {
        let _ = fs::remove_dir_all(&self.0);
    }
}
