//! What the library's source says: its exported functions, the structs that they answer, its constants.

use crate::text::{parts, without_comments};
use std::fs;
use std::path::{Path, PathBuf};

/// How an exported function begins.
const EXPORTED: &str = "#[unsafe(no_mangle)]";

/// An exported function: its parameters by name and type, and the type of its result.
pub struct Function {
    pub name: String,
    pub parameters: Vec<(String, String)>,
    pub result: String,
}

/// The source of the crates below a folder.
pub struct Library {
    crates: PathBuf,
}

impl Library {
    pub fn new(root: &Path) -> Library {
        Library {
            crates: root.join("crates"),
        }
    }

    /// The source of a crate, without comments.
    fn source(&self, name: &str) -> Result<String, String> {
        let folder = self.crates.join(name).join("src");
        let unread = |e| format!("{}: {e}", folder.display());
        let mut files = Vec::new();
        for entry in fs::read_dir(&folder).map_err(unread)? {
            files.push(entry.map_err(unread)?.path());
        }
        files.sort();
        let texts = files.iter().map(fs::read_to_string);
        let texts = texts.collect::<Result<Vec<_>, _>>().map_err(unread)?;
        Ok(without_comments(&texts.join("\n")))
    }

    /// The exported functions.
    pub fn functions(&self) -> Result<Vec<Function>, String> {
        let source = self.source("zankurbe")?;
        let marked = source.matches(EXPORTED).count();
        let functions: Vec<Function> = source
            .split(&format!("{EXPORTED}\npub extern \"C\" fn "))
            .skip(1)
            .map(function)
            .collect::<Option<_>>()
            .ok_or("an exported function that can't be read")?;
        let exported = source.matches("extern \"C\"").count();
        if functions.is_empty() || functions.len() != marked || functions.len() != exported {
            return Err(format!(
                "of {exported} exported functions with {marked} marks, {} can be read",
                functions.len()
            ));
        }
        Ok(functions)
    }

    /// The fields of a struct that C can read, by name and type.
    pub fn fields(&self, of_crate: &str, name: &str) -> Result<Vec<(String, String)>, String> {
        let source = self.source(of_crate)?;
        let unread = || format!("crates/{of_crate}: no struct {name} that C can read");
        let (before, after) = source
            .split_once(&format!("pub struct {name} {{"))
            .ok_or_else(unread)?;
        let mut attributes = before.lines().rev().take_while(|it| it.starts_with("#["));
        if !attributes.any(|it| it == "#[repr(C)]") {
            return Err(unread());
        }
        let (body, _) = after.split_once('}').ok_or_else(unread)?;
        let fields = parts(body, ',').into_iter().map(|field| {
            let (name, of_type) = field.strip_prefix("pub ")?.split_once(':')?;
            Some((name.trim().to_string(), of_type.trim().to_string()))
        });
        fields.collect::<Option<_>>().ok_or(format!(
            "crates/{of_crate}: a field of {name} that can't be read"
        ))
    }

    /// The value of a constant of a file below crates/: a number, or a product of numbers and of constants
    /// that the file or a home of numbers has.
    pub fn constant(&self, file: &str, name: &str) -> Result<u64, String> {
        let unread = || format!("crates/{file}: no constant {name} that can be read");
        let (_, value) = self
            .definitions(file)?
            .into_iter()
            .find(|it| it.0 == name)
            .ok_or_else(unread)?;
        let mut product = 1;
        for factor in value.split('*') {
            let factor = factor.split(" as ").next().unwrap_or(factor).trim();
            product *= match factor.replace('_', "").parse() {
                Ok(number) => number,
                Err(_) => self.named(file, factor).ok_or_else(unread)?,
            };
        }
        Ok(product)
    }

    /// A constant that another names, by the last part of its path.
    fn named(&self, file: &str, path: &str) -> Option<u64> {
        let name = path.rsplit("::").next()?;
        let files = [file, "base/src/limits.rt", "state/src/layout.rt"];
        let home = files.into_iter().find(|file| {
            self.definitions(file)
                .is_ok_and(|all| all.iter().any(|it| it.0 == name))
        })?;
        self.constant(home, name).ok()
    }

    /// All constants of a file below crates/ that are a number.
    pub fn constants(&self, file: &str) -> Result<Vec<(String, u64)>, String> {
        let numbers = self.definitions(file)?.into_iter().filter_map(|it| {
            let number = it.1.replace('_', "").parse().ok()?;
            Some((it.0, number))
        });
        Ok(numbers.collect())
    }

    /// All constants of a file, with what they are defined as.
    fn definitions(&self, file: &str) -> Result<Vec<(String, String)>, String> {
        let path = self.crates.join(file);
        let source = fs::read_to_string(&path).map_err(|e| format!("{}: {e}", path.display()))?;
        let source = without_comments(&source);
        let found = source
            .lines()
            .filter_map(|line| definition(line).or_else(|| variant(line)));
        Ok(found.collect())
    }
}

/// A constant of a line, with what it is defined as.
fn definition(line: &str) -> Option<(String, String)> {
    let (_, rest) = line.split_once("const ")?;
    let (name, rest) = rest.split_once(':')?;
    let (_, value) = rest.split_once('=')?;
    let value = value.trim().strip_suffix(';')?;
    Some((name.trim().to_string(), value.to_string()))
}

/// A numbered variant of an enum, by the name that a constant would have: `LoadShare = 3,` is LOAD_SHARE.
fn variant(line: &str) -> Option<(String, String)> {
    let (name, value) = line.trim().strip_suffix(',')?.split_once(" = ")?;
    let is_name = name.starts_with(|c: char| c.is_ascii_uppercase())
        && name.chars().all(|c| c.is_ascii_alphanumeric());
    if !is_name || value.parse::<u32>().is_err() {
        return None;
    }
    let mut constant = String::new();
    for c in name.chars() {
        if c.is_ascii_uppercase() && !constant.is_empty() {
            constant.push('_');
        }
        constant.push(c.to_ascii_uppercase());
    }
    Some((constant, value.to_string()))
}

/// A function from the text after its `fn`.
fn function(text: &str) -> Option<Function> {
    let (name, rest) = text.split_once('(')?;
    let (parameters, rest) = rest.split_once(')')?;
    let (_, result) = rest.split_once("->")?;
    let result = result.split_whitespace().next()?;
    let parameters = parts(parameters, ',').into_iter().map(|parameter| {
        let (name, of_type) = parameter.split_once(':')?;
        Some((name.trim().to_string(), of_type.trim().to_string()))
    });
    Some(Function {
        name: name.trim().to_string(),
        parameters: parameters.collect::<Option<_>>()?,
        result: result.to_string(),
    })
}
