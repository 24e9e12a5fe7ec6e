//! Running a program on files in a folder of its own.

use std::fs;
use std::path::{Path, PathBuf};
use std::process::{Command, Output};

/// A temporary folder, and where the programs are.
pub struct Runs {
    folder: PathBuf,
    programs: PathBuf,
    /// Each file lacks its last byte: a run must see that.
    spoilt: bool,
}

fn told<T>(path: &Path, outcome: std::io::Result<T>) -> Result<T, String> {
    outcome.map_err(|problem| format!("{}: {problem}", path.display()))
}

impl Runs {
    pub fn new(programs: &str, spoilt: bool) -> Result<Runs, String> {
        let programs = told(Path::new(programs), fs::canonicalize(programs))?;
        let folder = std::env::temp_dir().join(format!("birnsket_programs_{}", std::process::id()));
        told(&folder, fs::create_dir_all(&folder))?;
        Ok(Runs { folder, programs, spoilt })
    }

    /// Writes a file, or sees to it that there is none.
    pub fn put(&self, file: &str, content: Option<&[u8]>) -> Result<(), String> {
        let path = self.folder.join(file);
        match content {
            Some(content) => {
                let lacks = usize::from(self.spoilt && !content.is_empty());
                told(&path, fs::write(&path, &content[..content.len() - lacks]))
            }
            None if path.exists() => told(&path, fs::remove_file(&path)),
            None => Ok(()),
        }
    }

    pub fn run(&self, program: &str) -> Result<Output, String> {
        let path = self.programs.join(program);
        told(&path, Command::new(&path).current_dir(&self.folder).output())
    }
}

impl Drop for Runs {
    fn drop(&mut self) {
        let _ = fs::remove_dir_all(&self.folder);
    }
}
