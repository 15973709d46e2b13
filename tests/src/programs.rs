//! What the tests of the programs share: files for a case in a folder of its own, the shipped examples, rules from seeds, and what passed and failed.

use outside_checks::generate::{broken, nested, sized, small, Random};
use std::fs;
use std::path::{Path, PathBuf};
use std::process::{exit, Command};

/// What stands under a file's name.
#[derive(Clone)]
pub enum File {
    Missing,
    Folder,
    Bytes(Vec<u8>),
}

impl File {
    pub fn of(bytes: impl Into<Vec<u8>>) -> File {
        File::Bytes(bytes.into())
    }

    /// What counts: a file that can't be opened or read counts as empty (docs/DECISIONS.md).
    pub fn bytes(&self) -> &[u8] {
        if let File::Bytes(bytes) = self { bytes } else { &[] }
    }

    fn put(&self, path: &Path) {
        match self {
            File::Missing => Ok(()),
            File::Folder => fs::create_dir(path),
            File::Bytes(bytes) => fs::write(path, bytes),
        }
        .unwrap_or_else(|e| panic!("{}: {e}", path.display()));
    }
}

/// A program, the folder in which each case is laid out, and how its cases went.
pub struct Checks {
    name: &'static str,
    program: String,
    folder: PathBuf,
    passed: usize,
    failed: usize,
}

impl Checks {
    pub fn new(name: &'static str, program: &str, folder: &str) -> Checks {
        Checks { name, program: program.to_string(), folder: PathBuf::from(folder), passed: 0, failed: 0 }
    }

    pub fn note(&mut self, what: &str, well: bool) {
        if well {
            self.passed += 1;
        } else {
            self.failed += 1;
            if self.failed <= 10 {
                println!("{}: FAILED: {what}", self.name);
            }
        }
    }

    /// The program, to be started in a folder with these files and no others.
    pub fn command(&self, files: &[(&str, &File)]) -> Command {
        let _ = fs::remove_dir_all(&self.folder);
        fs::create_dir_all(&self.folder).unwrap_or_else(|e| panic!("{}: {e}", self.folder.display()));
        for (name, file) in files {
            file.put(&self.folder.join(name));
        }
        let mut command = Command::new(&self.program);
        command.current_dir(&self.folder);
        command
    }

    pub fn part(&mut self, name: &str, run: impl FnOnce(&mut Checks)) {
        let (passed, failed) = (self.passed, self.failed);
        run(self);
        println!("{}: {name}: {} passed, {} failed", self.name, self.passed - passed, self.failed - failed);
    }

    /// The last line, and the exit that goes with it.
    pub fn end(self) -> ! {
        println!("{}: {} passed, {} failed", self.name, self.passed, self.failed);
        exit(i32::from(self.failed > 0))
    }
}

/// The first bytes of many, to be shown.
pub fn start(bytes: &[u8]) -> String {
    bytes.iter().take(60).copied().collect::<Vec<u8>>().escape_ascii().to_string()
}

/// A shipped example: a folder with a rule, a journal and the desk program's report on them.
pub struct Example {
    pub name: String,
    pub rule: Vec<u8>,
    pub journal: Vec<u8>,
    pub report: Vec<u8>,
}

pub fn examples(folder: &Path) -> Vec<Example> {
    let entries = fs::read_dir(folder).unwrap_or_else(|e| panic!("{}: {e}", folder.display()));
    entries
        .filter_map(|entry| {
            let path = entry.expect("an example").path();
            let [rule, journal, report] = ["rule", "journal", "report"].map(|name| fs::read(path.join(name)).ok());
            Some(Example { name: path.display().to_string(), rule: rule?, journal: journal?, report: report? })
        })
        .collect()
}

/// A rule from a seed below 300, and the numbers that go on from there.
pub fn generated(seed: u64) -> (Random, Vec<u8>) {
    let mut r = Random::new(seed);
    let (deep, wanted) = (r.between(1, 9), r.between(60, 515));
    let rule = match seed {
        0..170 => small(&mut r),
        170..200 => broken(&mut r),
        200..240 => nested(&mut r, deep),
        _ => sized(&mut r, wanted, deep - 1),
    };
    (r, rule)
}
