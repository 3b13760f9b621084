//! A file in the system's folder for temporary files, removed at the end.
use std::env;
use std::fs;
use std::path::PathBuf;
use std::process;

pub struct Scratch(PathBuf);

impl Scratch {
    pub fn new() -> Scratch {
        Scratch(env::temp_dir().join(format!("custody-bench-{}", process::id())))
    }

    /// Writes the file anew and answers where it is.
    pub fn write(&self, bytes: &[u8]) -> PathBuf {
        fs::write(&self.0, bytes).expect("the folder for temporary files can be written");
        self.0.clone()
    }
}

impl Drop for Scratch {
    fn drop(&mut self) {
        // Nothing depends on it.
        let _ = fs::remove_file(&self.0);
    }
}
