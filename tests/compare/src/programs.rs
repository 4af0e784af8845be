//! The repository's programs, run as processes in a folder of their own under target/.

use crate::library::Ours;
use std::fs;
use std::io::Write;
use std::path::{Path, PathBuf};
use std::process::{Command, Stdio};

const TARGET: &str = concat!(env!("CARGO_MANIFEST_DIR"), "/../../target");
const CRATES: &str = concat!(env!("CARGO_MANIFEST_DIR"), "/../../crates");

/// What a process prints.
#[derive(Clone, PartialEq)]
pub struct Printed {
    pub output: Vec<u8>,
    pub error: String,
}

/// A folder that programs run in. It is removed at the end.
pub struct Folder(PathBuf);

impl Folder {
    /// The folder of a worker of this run of the comparison.
    pub fn new(worker: usize) -> Folder {
        let name = format!("compare-{}-{worker}", std::process::id());
        let path = PathBuf::from(TARGET).join(name);
        fs::create_dir_all(&path).expect("a folder under target/");
        Folder(path)
    }
}

impl Drop for Folder {
    fn drop(&mut self) {
        // Where it can't be removed, it is in nobody's way.
        let _ = fs::remove_dir_all(&self.0);
    }
}

impl Ours<'_> {
    /// Writes a file of the folder.
    pub fn write(&self, name: &str, bytes: &[u8]) -> Result<(), String> {
        fs::write(self.folder.0.join(name), bytes).map_err(|e| format!("can't write {name}: {e}"))
    }

    /// The bytes of a file of the folder, if it is there.
    pub fn read(&self, name: &str) -> Option<Vec<u8>> {
        self.plant
            .file(name, fs::read(self.folder.0.join(name)).ok())
    }

    /// Removes a file of the folder, if it is there.
    pub fn remove(&self, name: &str) {
        // Where there is none, nothing is left to do.
        let _ = fs::remove_file(self.folder.0.join(name));
    }

    /// Runs a program, as its crate has it, in the folder, with `input` on standard input in the parts given.
    pub fn run(
        &self,
        program: &str,
        arguments: &[&str],
        input: &[&[u8]],
    ) -> Result<Printed, String> {
        let printed = run(program, arguments, input, &self.folder.0)?;
        Ok(self.plant.printed(program, printed))
    }
}

fn run(
    program: &str,
    arguments: &[&str],
    input: &[&[u8]],
    folder: &Path,
) -> Result<Printed, String> {
    let failed = |e| format!("can't run {program}: {e}");
    let built = format!("{CRATES}/{program}/out/{program}");
    let path = fs::canonicalize(built).map_err(failed)?;
    let mut process = Command::new(path)
        .args(arguments)
        .current_dir(folder)
        .stdin(Stdio::piped())
        .stdout(Stdio::piped())
        .stderr(Stdio::piped())
        .spawn()
        .map_err(failed)?;
    if let Some(mut pipe) = process.stdin.take() {
        for part in input {
            // A program may end before it has read everything.
            if pipe.write_all(part).is_err() {
                break;
            }
        }
    }
    let printed = process.wait_with_output().map_err(failed)?;
    if printed.status.code().is_none() {
        return Err(format!("{program} was ended by {}", printed.status));
    }
    Ok(Printed {
        output: printed.stdout,
        error: String::from_utf8_lossy(&printed.stderr).into_owned(),
    })
}

/// Whether a text is one line that ends by a newline.
pub fn is_one_line(text: &str) -> bool {
    text.find('\n').is_some_and(|end| end + 1 == text.len())
}

/// Whether a text has the word, a blank and the number, with no digit behind.
pub fn says(text: &str, word: &str, number: usize) -> bool {
    let sought = format!("{word} {number}");
    text.match_indices(&sought)
        .any(|(at, _)| !text[at + sought.len()..].starts_with(|c: char| c.is_ascii_digit()))
}

/// What a text is, as far as a report of a difference shows it.
pub fn shown(text: &[u8]) -> String {
    const MOST: usize = 3_000;
    let end = text.len().min(MOST);
    let more = if end < text.len() { " …" } else { "" };
    format!("{}{more}", text[..end].escape_ascii())
}
