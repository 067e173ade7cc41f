//! The cases of a program of `crates/` that runs vectors, and what it must print, as files of the
//! tree.

use std::path::PathBuf;
use std::{fs, io};

/// What was made for a program: each file's name and bytes.
pub struct Made {
    pub program: &'static str,
    pub files: [(&'static str, Vec<u8>); 2],
}

impl Made {
    fn path(&self, name: &str) -> PathBuf {
        PathBuf::from(env!("CARGO_MANIFEST_DIR")).join("../crates").join(self.program).join(name)
    }

    /// Writes the files into the tree.
    pub fn write(&self) -> io::Result<()> {
        self.files.iter().try_for_each(|(name, bytes)| fs::write(self.path(name), bytes))
    }

    /// Panics unless the tree has these files.
    #[cfg(test)]
    pub fn assert_in_tree(&self) {
        for (name, bytes) in &self.files {
            let path = self.path(name);
            let held = fs::read(&path).expect("the file is in the tree");
            assert!(held == *bytes, "{} is not what this example makes", path.display());
        }
    }
}
