//! A difference that was found, and the files it is left in.

use std::fs;
use std::path::Path;

/// A trace and the two sides' lines.
#[derive(Debug)]
pub struct Difference {
    /// Where it came from: a family and a seed.
    pub origin: String,
    /// What went wrong, in a sentence.
    pub what: String,
    pub trace: Vec<u8>,
    pub expected: String,
    pub found: String,
}

impl Difference {
    /// Leaves the trace and both sides' lines in a folder.
    pub fn write(&self, folder: &Path) -> std::io::Result<()> {
        fs::write(folder.join("trace"), &self.trace)?;
        fs::write(folder.join("expected"), &self.expected)?;
        fs::write(folder.join("found"), &self.found)
    }
}
