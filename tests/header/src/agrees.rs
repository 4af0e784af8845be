//! Checks that the C header and the Rust declarations say what the library's source says: every exported
//! function with its name, its parameters and its result, the structs of the answers, and the constants.
//! Reads the repository whose folder is named. Prints what doesn't agree and, last, 'N passed, M failed'.

mod constants;
mod declarations;
mod library;
mod text;

use declarations::{Language, C, RUST};
use library::{Function, Library};
use std::fs;
use std::path::Path;
use text::without_comments;

const HEADER: &str = "include/zankurbe.h";
const DECLARATIONS: &str = "tests/compare/src/zankurbe.rs";

/// The structs of the answers, and their crates.
const STRUCTS: [(&str, &str); 2] = [("base", "Answer"), ("same", "Verdict")];

/// What is found to agree, and what isn't.
#[derive(Default)]
struct Findings {
    agree: u64,
    differ: Vec<String>,
}

impl Findings {
    fn note(&mut self, agrees: bool, difference: impl FnOnce() -> String) {
        if agrees {
            self.agree += 1;
        } else {
            self.differ.push(difference());
        }
    }

    /// Each declaration that is expected is found once, and no other is found.
    fn declared(&mut self, file: &str, expected: &[String], found: &[String]) {
        for declaration in expected {
            let times = found.iter().filter(|&it| it == declaration).count();
            self.note(times == 1, || {
                format!("{file}: {times} times, not once: {declaration}")
            });
        }
        for declaration in found.iter().filter(|it| !expected.contains(it)) {
            self.note(false, || {
                format!("{file}: not in the library's source: {declaration}")
            });
        }
    }
}

/// The declarations of functions and structs in a language.
fn expected(
    language: &Language,
    library: &Library,
    functions: &[Function],
) -> Result<Vec<String>, String> {
    let mut all = Vec::new();
    for (of_crate, name) in STRUCTS {
        all.push(language.structure(name, &library.fields(of_crate, name)?)?);
    }
    for function in functions {
        all.push(language.function(function)?);
    }
    Ok(all)
}

/// The header's constants: each is what the sources say, and each is said there.
fn compare_constants(
    header: &str,
    library: &Library,
    findings: &mut Findings,
) -> Result<(), String> {
    let found = constants::of_header(header)?;
    let expected = constants::expected(library)?;
    for (name, value, place) in &expected {
        let values: Vec<u64> = found
            .iter()
            .filter(|it| it.0 == *name)
            .map(|it| it.1)
            .collect();
        findings.note(values == [*value], || {
            format!("{HEADER}: ZANKURBE_{name} is {values:?}, not {value} ({place})")
        });
    }
    for (name, _) in &found {
        findings.note(expected.iter().any(|it| it.0 == *name), || {
            format!("{HEADER}: ZANKURBE_{name} is compared with nothing")
        });
    }
    Ok(())
}

fn compare(root: &Path) -> Result<Findings, String> {
    let read = |file: &str| {
        let text = fs::read_to_string(root.join(file));
        text.map(|text| without_comments(&text))
            .map_err(|e| format!("{file}: {e}"))
    };
    let (header, declarations) = (read(HEADER)?, read(DECLARATIONS)?);
    let library = Library::new(root);
    let functions = library.functions()?;
    let mut findings = Findings::default();
    findings.declared(
        HEADER,
        &expected(&C, &library, &functions)?,
        &declarations::of_header(&header),
    );
    findings.declared(
        DECLARATIONS,
        &expected(&RUST, &library, &functions)?,
        &declarations::of_rust(&declarations),
    );
    let numbers = library.constant("posting/src/rows.rt", "NUMBERS")?;
    findings.note(
        declarations.contains(&format!("POSTED_NUMBERS: usize = {numbers};")),
        || format!("{DECLARATIONS}: POSTED_NUMBERS is not {numbers}"),
    );
    findings.note(constants::version_agrees(&header, &library)?, || {
        format!("{HEADER}: the version's text is not that of its number")
    });
    compare_constants(&header, &library, &mut findings)?;
    Ok(findings)
}

fn main() {
    let Some(root) = std::env::args_os().nth(1) else {
        eprintln!("header-agrees: name the repository's folder");
        std::process::exit(2);
    };
    let findings = compare(Path::new(&root)).unwrap_or_else(|unread| Findings {
        agree: 0,
        differ: vec![unread],
    });
    for difference in &findings.differ {
        println!("{difference}");
    }
    let failed = findings.differ.len();
    println!("{} passed, {failed} failed", findings.agree);
    if failed > 0 {
        std::process::exit(1);
    }
}
