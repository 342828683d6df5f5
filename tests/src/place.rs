//! Where the programs are, and folders to run them in.
use std::path::{Path, PathBuf};
use std::process::Command;
use std::sync::atomic::{AtomicUsize, Ordering};

/// A program of target/bin, or the one that a variable names, to try the tests themselves.
fn program(name: &str, variable: &str) -> PathBuf {
    let named = std::env::var_os(variable).map(PathBuf::from);
    let path = named.unwrap_or_else(|| Path::new(env!("CARGO_MANIFEST_DIR")).join("../target/bin").join(name));
    path.canonicalize().unwrap_or_else(|e| panic!("{}: {e}", path.display()))
}

pub fn watch() -> PathBuf {
    program("watch", "JUNTREAK_WATCH")
}

pub fn rules() -> PathBuf {
    program("rules", "JUNTREAK_RULES")
}

/// The program watch, to be run in a folder.
pub fn watch_in(folder: &Folder) -> Command {
    let mut command = Command::new(watch());
    command.current_dir(&folder.0);
    command
}

/// A folder that is removed in the end.
pub struct Folder(pub PathBuf);

impl Folder {
    pub fn empty() -> Folder {
        static COUNT: AtomicUsize = AtomicUsize::new(0);
        let number = COUNT.fetch_add(1, Ordering::Relaxed);
        let path = std::env::temp_dir().join(format!("juntreak-tests-{}-{number}", std::process::id()));
        // A run that was stopped may have left one of this name.
        let _ = std::fs::remove_dir_all(&path);
        std::fs::create_dir(&path).unwrap();
        Folder(path)
    }

    /// With a file rules.bin.
    pub fn with_rules(rules: &[u8]) -> Folder {
        let folder = Folder::empty();
        folder.write("rules.bin", rules);
        folder
    }

    pub fn write(&self, name: &str, bytes: &[u8]) {
        std::fs::write(self.0.join(name), bytes).unwrap();
    }
}

impl Drop for Folder {
    fn drop(&mut self) {
        let _ = std::fs::remove_dir_all(&self.0);
    }
}
